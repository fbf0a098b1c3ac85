# Where the Rattle kit and its tools are: the kit is the folder above the real path of rt. To be sourced.
if ! command -v rt > /dev/null; then
    echo "rt is not on the path: the Rattle kit named in README.md is needed" >&2
    exit 2
fi
kit=$(dirname "$(dirname "$(readlink -f "$(command -v rt)")")")
tools=$kit/toolchain
target=x86_64-linux-gnu

# the include folders of this machine's C library and compiler, for the kit's clang, which has none of its own
system_includes() {
    local folder
    for folder in "$(cc -print-file-name=include)" "/usr/include/$(cc -print-multiarch)" /usr/include; do
        printf -- '-isystem %s ' "$folder"
    done
}
