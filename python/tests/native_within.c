/* Linked into a `_native` that is tried, which is compiled with -finstrument-functions: the module _meanwhile is told where a
 * function begins and ends. */
#define OUTSIDE __attribute__((no_instrument_function))

void meanwhile_begins(void);
void meanwhile_ends(void);

OUTSIDE void __cyg_profile_func_enter(void *function, void *caller);
OUTSIDE void __cyg_profile_func_exit(void *function, void *caller);

void __cyg_profile_func_enter(void *function, void *caller)
{
    (void)function, (void)caller;
    meanwhile_begins();
}

void __cyg_profile_func_exit(void *function, void *caller)
{
    (void)function, (void)caller;
    meanwhile_ends();
}
