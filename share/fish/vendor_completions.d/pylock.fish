# Completes the words of pylock in fish.
# Made by tools/make/manual from the texts of help: edit those.

set -g __pylock_awk 'function offer(name) {
    if (name ~ /^[a-z0-9]([a-z0-9-]*[a-z0-9])?$/ && !(name in seen)) {
        seen[name] = 1
        print name
    }
}
# the texts from this place on, to the end of the array or of the line
function read_texts(place,    size, start, mark, sign) {
    size = length($0)
    for (; place <= size; place++) {
        mark = substr($0, place, 1)
        if (mark == "#") return
        if (mark == "]") break
        if (mark != "\"" && mark != "\047") continue
        start = place + 1
        do sign = substr($0, ++place, 1)
        while (sign != "" && sign != mark && sign != "\134")
        if (sign != mark) break
        offer(substr($0, start, place - start))
    }
    if (place <= size || mark == "]") is_open = 0
}
BEGIN {
    key = want == "groups" ? "(dependency|default)-groups" : want
    key = "^[ \t]*\"?" key "\"?[ \t]*=[ \t]*[[]"
}
want == "packages" {
    if ($0 ~ /^[ \t]*\[/) is_entry = $0 ~ /^[ \t]*\[\[[ \t]*packages[ \t]*\]\]/
    else if (is_entry && match($0, /^[ \t]*name[ \t]*=[ \t]*/)) read_texts(RLENGTH + 1)
    next
}
is_open {
    read_texts(1)
    next
}
/^[ \t]*(\[|"?packages"?[ \t]*=)/ { exit }
match($0, key) {
    is_open = 1
    read_texts(RLENGTH + 1)
}'

# the words before the cursor that are no options and no values of one: the command, and what stands behind it
function __pylock_words
    set -l is_value
    set -l ended
    for word in (commandline -opc)[2..-1]
        if set -q is_value[1]
            set -e is_value
        else if not set -q ended[1]; and test "$word" = --
            set ended 1
        else if not set -q ended[1]; and string match -qr -- '^-.' "$word"
            if contains -- "$word" --python --platform --extra --group --no-group --only-binary --no-binary --set --only --except --format --created --base --installed --advisories --host --fail-on --ignore --config --in
                set is_value 1
            end
        else
            printf '%s\n' "$word"
        end
    end
end

# __pylock_at COUNT COMMAND..: whether one of the commands stands on the line, and COUNT words behind it
function __pylock_at
    set -l words (__pylock_words)
    test (count $words) -eq (math 1 + $argv[1]); and contains -- "$words[1]" $argv[2..-1]
end

# __pylock_in COMMAND..: whether one of the commands stands on the line
function __pylock_in
    set -l words (__pylock_words)
    set -q words[1]; and contains -- "$words[1]" $argv
end

function __pylock_in_none
    set -l words (__pylock_words)
    not set -q words[1]
end

# __pylock_names WHAT: the extras, groups or packages of the lock on the line, of which 64 KiB are read
function __pylock_names
    set -l words (__pylock_words)
    set -q words[2]; or return
    set -l lock (string replace -r '^~/' "$HOME/" -- $words[2])
    test -f "$lock" -a -r "$lock"; or return
    command head -c 65536 <"$lock" 2>/dev/null | LC_ALL=C command awk -v want=$argv[1] $__pylock_awk 2>/dev/null
end

function __pylock_variables
    printf '%s=\n' os_name sys_platform platform_machine platform_python_implementation platform_release \
        platform_system platform_version python_version python_full_version implementation_name \
        implementation_version
end

# __pylock_files END: the files for the word at the cursor, or for what stands behind the = of an option in it; those
# whose names end with END first
function __pylock_files
    __fish_complete_suffix (commandline -ct | string replace -r -- '^--[a-z-]*=' '') $argv[1]
end

complete -c pylock -f
complete -c pylock -n __pylock_in_none -s h -l help -d 'Print help'
complete -c pylock -n __pylock_in_none -s V -l version -d 'Print version'
complete -c pylock -n '__pylock_in plan explain select status check diff environment marker' -l python -x -a '3.10 3.11 3.12 3.13 3.14 3.13t 3.14t' -d 'The Python of a target: 3.12, 3.12.4 or 3.13t'
complete -c pylock -n '__pylock_in plan explain select status check diff environment marker' -l platform -x -a 'linux macos windows manylinux_2_28_x86_64 manylinux_2_28_aarch64 musllinux_1_2_x86_64 musllinux_1_2_aarch64 macosx_14_0_arm64 macosx_14_0_x86_64 win_amd64 win_arm64 win32 x86_64-unknown-linux-gnu aarch64-unknown-linux-gnu aarch64-apple-darwin x86_64-pc-windows-msvc' -d 'Its platform: linux or manylinux_2_28_x86_64'
complete -c pylock -n '__pylock_in plan explain matrix status check diff' -l all-extras -d 'Ask for each extra of the lock'
complete -c pylock -n '__pylock_in plan explain matrix status check diff' -l extra -x -a '(__pylock_names extras)' -d 'Ask for an extra of the lock: --extra test'
complete -c pylock -n '__pylock_in plan explain matrix status check diff' -l no-default-groups -d 'Leave out the default groups'
complete -c pylock -n '__pylock_in plan explain matrix status check diff' -l all-groups -d 'Ask for each group of the lock'
complete -c pylock -n '__pylock_in plan explain matrix status check diff' -l group -x -a '(__pylock_names groups)' -d 'Ask for a group of the lock: --group test'
complete -c pylock -n '__pylock_in plan explain matrix status check diff' -l no-group -x -a '(__pylock_names groups)' -d 'Leave out a group of the lock: --no-group dev'
complete -c pylock -n '__pylock_in plan explain matrix status check diff' -l only-binary -x -a '(echo :all:; __pylock_names packages)' -d 'Take wheels alone: --only-binary numpy, or :all:'
complete -c pylock -n '__pylock_in plan explain matrix status check diff' -l no-binary -x -a '(echo :all:; __pylock_names packages)' -d 'Take no wheels: --no-binary numpy, or :all:'
complete -c pylock -n '__pylock_in plan explain matrix status check diff' -l set -x -a '(__pylock_variables)' -d 'Give a marker variable a text: --set os_name=nt'
complete -c pylock -n '__pylock_in plan' -l only -x -a '(__pylock_names packages)' -d 'Print of the plan this package alone, or these'
complete -c pylock -n '__pylock_in plan' -l except -x -a '(__pylock_names packages)' -d 'Leave this package out of the plan'
complete -c pylock -n '__pylock_in plan files' -l no-project -d 'Leave out what is editable, and the lock\'s folder'
complete -c pylock -n '__pylock_in plan explain select matrix status check' -l strict -d 'Refuse a lock with certain findings of audit'
complete -c pylock -n '__pylock_in plan' -l format -x -a 'requirements requirements-local sha256sum aria2 urls cyclonedx spdx' -d 'Print a form that another tool takes'
complete -c pylock -n '__pylock_in plan' -l created -x -a '' -d 'The time of an SPDX document: 2026-07-24T12:00:00Z'
complete -c pylock -n '__pylock_in plan files' -l base -x -a '' -d 'Write TO in a form where a URL begins with FROM'
complete -c pylock -n '__pylock_in plan explain matrix status check show files audit diff version match name marker requirement wheel sdist' -l json -d 'Print one JSON document in place of the lines'
complete -c pylock -n '__pylock_in plan explain select matrix status check show files audit diff environment version match name marker requirement wheel sdist' -s h -l help -d 'Print help'
complete -c pylock -n '__pylock_in select' -l json -d 'Print a JSON document on a line for each answer'
complete -c pylock -n '__pylock_in matrix' -l python -x -a '3.10 3.11 3.12 3.13 3.14 3.13t 3.14t' -d 'The Pythons, joined by commas: 3.11,3.12'
complete -c pylock -n '__pylock_in matrix' -l platform -x -a 'linux macos windows manylinux_2_28_x86_64 manylinux_2_28_aarch64 musllinux_1_2_x86_64 musllinux_1_2_aarch64 macosx_14_0_arm64 macosx_14_0_x86_64 win_amd64 win_arm64 win32 x86_64-unknown-linux-gnu aarch64-unknown-linux-gnu aarch64-apple-darwin x86_64-pc-windows-msvc' -d 'The platforms, joined by commas: linux,macos'
complete -c pylock -n '__pylock_in matrix' -l no-build -d 'End with 1 where something is built from source'
complete -c pylock -n '__pylock_in matrix' -l files -d 'Print the files that the targets take, each once'
complete -c pylock -n '__pylock_in matrix files' -l format -x -a 'sha256sum aria2 urls' -d 'Print a form that another tool takes'
complete -c pylock -n '__pylock_in status' -l installed -x -k -a '(__pylock_files .json)' -d 'What pip inspect or pip list --format json prints'
complete -c pylock -n '__pylock_in status' -l exact -d 'Remove pip, setuptools and wheel too'
complete -c pylock -n '__pylock_in check' -l matrix -d 'Judge each target of matrix in place of ENV'
complete -c pylock -n '__pylock_in files' -l only -x -a '(__pylock_names packages)' -d 'Print the sources of this package alone, or these'
complete -c pylock -n '__pylock_in files' -l except -x -a '(__pylock_names packages)' -d 'Leave out the sources of this package'
complete -c pylock -n '__pylock_in audit' -l environments -d 'Look at every environment that the lock is for too'
complete -c pylock -n '__pylock_in audit' -l advisories -x -k -a '(__pylock_files .json)' -d 'Tell what these advisories affect, in OSV\'s format'
complete -c pylock -n '__pylock_in audit' -l host -x -a files.pythonhosted.org -d 'Tell each source that names another host than these'
complete -c pylock -n '__pylock_in audit' -l fail-on -x -a 'lock-version unknown-key wrong-type no-packages name-form version marker-extra readings-differ undeclared-name no-source several-sources no-hash weak-hash odd-hash bad-hash no-wheel-name no-sdist-name other-name other-version same-file-name unsafe-file-name outside-path unsafe-subdirectory not-https credentials secret-in-url moving-commit control-character' -d 'End with 1 for these findings alone'
complete -c pylock -n '__pylock_in audit' -l ignore -x -a 'lock-version unknown-key wrong-type no-packages name-form version marker-extra readings-differ undeclared-name no-source several-sources no-hash weak-hash odd-hash bad-hash no-wheel-name no-sdist-name other-name other-version same-file-name unsafe-file-name outside-path unsafe-subdirectory not-https credentials secret-in-url moving-commit control-character' -d 'Leave out a finding, of all packages or of one'
complete -c pylock -n '__pylock_in audit' -l config -x -k -a '(__pylock_files .toml)' -d 'Read [tool.pylock.audit] of a pyproject.toml too'
complete -c pylock -n '__pylock_in audit' -l format -x -a sarif -d 'Print a form that another tool takes'
complete -c pylock -n '__pylock_in diff' -l in -x -k -a '(__pylock_files .json)' -d 'Compare the plans for this environment'
complete -c pylock -n __pylock_in_none -a plan -d 'Print what a lock installs in an environment'
complete -c pylock -n '__pylock_at 0 help' -a plan -d 'Print what a lock installs in an environment'
complete -c pylock -n __pylock_in_none -a explain -d 'Print what becomes of each entry of a lock, and why'
complete -c pylock -n '__pylock_at 0 help' -a explain -d 'Print what becomes of each entry of a lock, and why'
complete -c pylock -n __pylock_in_none -a select -d 'Print what a lock installs, and print it again after each edit'
complete -c pylock -n '__pylock_at 0 help' -a select -d 'Print what a lock installs, and print it again after each edit'
complete -c pylock -n __pylock_in_none -a matrix -d 'Print what a lock installs on each of several machines'
complete -c pylock -n '__pylock_at 0 help' -a matrix -d 'Print what a lock installs on each of several machines'
complete -c pylock -n __pylock_in_none -a status -d 'Print what is to be done so that an environment has the plan'
complete -c pylock -n '__pylock_at 0 help' -a status -d 'Print what is to be done so that an environment has the plan'
complete -c pylock -n __pylock_in_none -a check -d 'Print whether a lock is still a project\'s'
complete -c pylock -n '__pylock_at 0 help' -a check -d 'Print whether a lock is still a project\'s'
complete -c pylock -n __pylock_in_none -a show -d 'Print what a lock says of itself'
complete -c pylock -n '__pylock_at 0 help' -a show -d 'Print what a lock says of itself'
complete -c pylock -n __pylock_in_none -a files -d 'Print every source that a lock names, whatever machine it is for'
complete -c pylock -n '__pylock_at 0 help' -a files -d 'Print every source that a lock names, whatever machine it is for'
complete -c pylock -n __pylock_in_none -a audit -d 'Print what a careful reader of a lock should know'
complete -c pylock -n '__pylock_at 0 help' -a audit -d 'Print what a careful reader of a lock should know'
complete -c pylock -n __pylock_in_none -a diff -d 'Print what a change of a lock means'
complete -c pylock -n '__pylock_at 0 help' -a diff -d 'Print what a change of a lock means'
complete -c pylock -n __pylock_in_none -a environment -d 'Print the environment of a Python and a platform'
complete -c pylock -n '__pylock_at 0 help' -a environment -d 'Print the environment of a Python and a platform'
complete -c pylock -n __pylock_in_none -a version -d 'Print the normal form of a version (PEP 440)'
complete -c pylock -n '__pylock_at 0 help' -a version -d 'Print the normal form of a version (PEP 440)'
complete -c pylock -n __pylock_in_none -a match -d 'Print whether a specifier set admits a version (PEP 440)'
complete -c pylock -n '__pylock_at 0 help' -a match -d 'Print whether a specifier set admits a version (PEP 440)'
complete -c pylock -n __pylock_in_none -a name -d 'Print the normal form of a name (PEP 503)'
complete -c pylock -n '__pylock_at 0 help' -a name -d 'Print the normal form of a name (PEP 503)'
complete -c pylock -n __pylock_in_none -a marker -d 'Print whether a marker holds in an environment (PEP 508)'
complete -c pylock -n '__pylock_at 0 help' -a marker -d 'Print whether a marker holds in an environment (PEP 508)'
complete -c pylock -n __pylock_in_none -a requirement -d 'Print the parts of a requirement (PEP 508)'
complete -c pylock -n '__pylock_at 0 help' -a requirement -d 'Print the parts of a requirement (PEP 508)'
complete -c pylock -n __pylock_in_none -a wheel -d 'Print the parts of a wheel\'s file name (PEP 427)'
complete -c pylock -n '__pylock_at 0 help' -a wheel -d 'Print the parts of a wheel\'s file name (PEP 427)'
complete -c pylock -n __pylock_in_none -a sdist -d 'Print the parts of an sdist\'s file name (PEP 625)'
complete -c pylock -n '__pylock_at 0 help' -a sdist -d 'Print the parts of an sdist\'s file name (PEP 625)'
complete -c pylock -n __pylock_in_none -a help -d 'Print this message or the help of the given subcommand(s)'
complete -c pylock -n '__pylock_at 0 help' -a help -d 'Print this message or the help of the given subcommand(s)'
complete -c pylock -n '__pylock_at 0 plan explain select matrix status check show files audit diff' -k -a '(__pylock_files .toml)'
complete -c pylock -n '__pylock_at 1 plan explain select status marker' -k -a '(__pylock_files .json)'
complete -c pylock -n '__pylock_at 1 check diff' -k -a '(__pylock_files .toml)'
complete -c pylock -n '__pylock_at 2 check' -k -a '(__pylock_files .json)'
