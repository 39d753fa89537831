# shellcheck shell=bash
# A folder of links to the kit of Rattle, in which `clang` is launcher/clang.py. So `rt try` makes the program as always, but it is compiled in parts
# and optimised, and `rt try` ends once it is there.

# Makes that folder, if the kit has what launcher/clang.py needs. rt finds its kit by its own path, so it is copied. `rattle`, by which `rt try` has a
# check look for names that are refused, isn't needed here.
link_kit() {
    local kit path
    kit=$(dirname "$(rt doc 2>/dev/null)")
    if ! [ -x "$kit/toolchain/bin/clang" ] || ! [ -x "$kit/bin/rattle-link" ] || ! command -v python3 >/dev/null; then return 1; fi
    mkdir -p "$room"/kit/{bin,toolchain/bin}
    for path in "$kit"/* "$kit"/bin/* "$kit"/toolchain/* "$kit"/toolchain/bin/*; do
        path=${path#"$kit/"}
        case $path in
        bin | toolchain | toolchain/bin | toolchain/bin/clang | bin/rattle) ;;
        bin/rt*) cp "$kit/$path" "$room/kit/$path" ;;
        *) ln -s "$kit/$path" "$room/kit/$path" ;;
        esac
    done
    ln -s "$(type -P true)" "$room/kit/bin/rattle"
    printf '#!/usr/bin/env bash\nexec python3 -B %q %q %q "$@"\n' "$top/launcher/clang.py" "$kit" "$room/program" >"$room/kit/toolchain/bin/clang"
    chmod +x "$room/kit/toolchain/bin/clang"
}
