// A small lock to begin with. Its hashes are made up.

const hash = (letter) => letter.repeat(64);

export const EXAMPLE = `# The projects are real, but the files, their sizes and hashes are made up.
lock-version = "1.0"
environments = ["sys_platform == 'linux'", "sys_platform == 'darwin'", "sys_platform == 'win32'"]
requires-python = ">=3.9"
extras = ["science"]
dependency-groups = ["test"]
default-groups = ["main"]
created-by = "example"

[[packages]]
name = "acme"
directory = {path = ".", editable = true}

[[packages]]
name = "acme-theme"
version = "0.4.2"
marker = "'main' in dependency_groups"
archive = {url = "https://downloads.acme.example/acme-theme-0.4.2.tar.gz", size = 48213, hashes = {sha256 = "${hash("a")}"}}

[[packages]]
name = "certifi"
version = "2025.1.31"
wheels = [{url = "https://files.example/certifi-2025.1.31-py3-none-any.whl", size = 166393, hashes = {sha256 = "${hash("b")}"}}]

[[packages]]
name = "colorama"
version = "0.4.6"
marker = "sys_platform == 'win32'"
wheels = [{url = "https://files.example/colorama-0.4.6-py2.py3-none-any.whl", size = 25335, hashes = {sha256 = "${hash("c")}"}}]

[[packages]]
name = "exceptiongroup"
version = "1.2.2"
marker = "python_version < '3.11' and ('test' in dependency_groups or 'science' in extras)"
wheels = [{url = "https://files.example/exceptiongroup-1.2.2-py3-none-any.whl", size = 16453, hashes = {sha256 = "${hash("d")}"}}]

[[packages]]
name = "numpy"
version = "2.2.1"
marker = "python_version >= '3.10' and 'science' in extras"
sdist = {url = "https://files.example/numpy-2.2.1.tar.gz", size = 20275896, hashes = {sha256 = "${hash("e")}"}}
wheels = [
    {url = "https://files.example/numpy-2.2.1-cp312-cp312-macosx_14_0_arm64.whl", size = 5139000, hashes = {sha256 = "${hash("0")}"}},
    {url = "https://files.example/numpy-2.2.1-cp312-cp312-manylinux_2_17_x86_64.manylinux2014_x86_64.whl", size = 16110000, hashes = {sha256 = "${hash("1")}"}},
    {url = "https://files.example/numpy-2.2.1-cp312-cp312-win_amd64.whl", size = 12624000, hashes = {sha256 = "${hash("2")}"}},
]

[[packages]]
name = "psutil"
version = "6.1.1"
sdist = {url = "https://files.example/psutil-6.1.1.tar.gz", size = 508565, hashes = {sha256 = "${hash("f")}"}}
wheels = [{url = "http://files.example/psutil-6.1.1-cp37-abi3-win_amd64.whl", size = 249006, hashes = {sha256 = "${hash("3")}"}}]

[[packages]]
name = "pytest"
version = "8.3.4"
marker = "'test' in dependency_groups"
wheels = [{url = "https://files.example/pytest-8.3.4-py3-none-any.whl", size = 343083, hashes = {sha256 = "${hash("4")}"}}]

[[packages]]
name = "uvloop"
version = "0.21.0"
marker = "sys_platform != 'win32' and platform_release != 'old'"
wheels = [{url = "https://files.example/uvloop-0.21.0-cp312-cp312-manylinux_2_17_x86_64.manylinux2014_x86_64.whl", size = 4068000, hashes = {sha256 = "${hash("5")}"}}]
`;
