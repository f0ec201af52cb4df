# bash completion for arwen, and for links to it that are named patchelf or install_name_tool

# The functions read and set variables of _arwen: at has the words that tell where the line is, places what is to stand behind
# them, owed what an option still takes; plain is set behind --, and quiet and asked by options.

# Sets places to what stands behind these words.
_arwen_places() {
    case "$1" in
    'macho' | 'elf') places='command' ;;
    'show' | 'patchelf') places='files' ;;
    'help') places='topic end' ;;
    'macho help' | 'elf help') places='named end' ;;
    'macho delete-rpath' | 'macho add-rpath' | 'macho change-install-id' | 'elf add-rpath' | 'elf set-rpath' | 'elf set-soname' | 'elf set-page-size' | 'elf clear-symbol-version') places='text file' ;;
    'macho change-rpath' | 'macho change-install-name') places='text text file' ;;
    'macho apply' | 'elf apply') places='file edit' ;;
    'macho + delete-rpath' | 'macho + add-rpath' | 'macho + change-install-id' | 'elf + add-rpath' | 'elf + set-rpath' | 'elf + set-interpreter' | 'elf + set-soname' | 'elf + set-page-size' | 'elf + clear-symbol-version') places='text plus' ;;
    'macho + change-rpath' | 'macho + change-install-name') places='text text plus' ;;
    'macho sign' | 'macho verify' | 'elf add-debug-tag' | 'elf clear-exec-stack' | 'elf force-rpath' | 'elf no-default-lib' | 'elf remove-rpath' | 'elf set-exec-stack' | 'elf shrink-rpath' | 'elf print-rpath' | 'elf print-needed' | 'elf print-soname' | 'elf print-interpreter' | 'elf print-os-abi' | 'elf print-exec-stack' | 'install-name-tool') places='file' ;;
    'elf set-interpreter') places='file file' ;;
    'elf set-os-abi') places='abi file' ;;
    'elf add-needed' | 'elf remove-needed' | 'elf replace-needed' | 'elf replace-library' | 'elf rename-dynamic-symbols' | 'elf rename-symbols' | 'elf delete-symbols' | 'elf rename-sections' | 'elf delete-sections') places='file texts' ;;
    'elf + add-debug-tag' | 'elf + clear-exec-stack' | 'elf + force-rpath' | 'elf + no-default-lib' | 'elf + remove-rpath' | 'elf + set-exec-stack') places='plus' ;;
    'elf + set-os-abi') places='abi plus' ;;
    'elf + add-needed' | 'elf + remove-needed' | 'elf + replace-needed' | 'elf + replace-library' | 'elf + rename-dynamic-symbols' | 'elf + rename-symbols' | 'elf + delete-symbols' | 'elf + rename-sections' | 'elf + delete-sections') places='more' ;;
    *) places= ;;
    esac
}

# Sets owed to what an option takes.
_arwen_owed() {
    case "$1" in
    'elf shrink-rpath -a' | 'elf shrink-rpath --allowed-rpath-prefixes') owed='folder' ;;
    'patchelf --set-interpreter' | 'patchelf --interpreter' | 'patchelf --rename-dynamic-symbols' | 'patchelf --output') owed='file' ;;
    'patchelf --set-os-abi') owed='abi' ;;
    'patchelf --set-soname' | 'patchelf --set-rpath' | 'patchelf --add-rpath' | 'patchelf --allowed-rpath-prefixes' | 'patchelf --add-needed' | 'patchelf --remove-needed' | 'patchelf --clear-symbol-version' | 'patchelf --page-size' | 'install-name-tool -add_rpath' | 'install-name-tool -prepend_rpath' | 'install-name-tool -delete_rpath' | 'install-name-tool -id') owed='text' ;;
    'patchelf --replace-needed' | 'install-name-tool -rpath' | 'install-name-tool -change') owed='text text' ;;
    esac
}

# Goes on behind an option.
_arwen_option() {
    case "${places%% *} $1" in
    *' -q' | *' --quiet') quiet=' -q' ;;
    'first '*) at=end places= ;;
    'command -h' | 'command --help') ;;
    'command '*) asked=" $1" ;;
    esac
    _arwen_owed "$at $1"
}

# Goes on behind a word.
_arwen_step() {
    local here="${places%% *}"
    if [[ -n "$owed" ]]; then
        [[ "$owed" == *' '* ]] && owed="${owed#* }" || owed=
        return
    fi
    if [[ -z "$plain" && "$1" == -- && ( "$at" == *' '* || "$at" == show ) ]]; then
        plain=yes
        return
    fi
    if [[ -z "$plain" && "$1" == -* ]]; then
        _arwen_option "$1"
        return
    fi
    if [[ "$at" == *' apply' && "$here" != file && "$1" == + ]]; then
        places=edit
        return
    fi
    case "$here" in
    first) at="$1"; _arwen_places "$at" ;;
    command) at="$at $1"; _arwen_places "$at" ;;
    edit) _arwen_places "${at%% *} + $1" ;;
    files | texts | more) ;;
    *) [[ "$places" == *' '* ]] && places="${places#* }" || places= ;;
    esac
}

# Sets place to what stands at the cursor, and key to that of its words.
_arwen_place() {
    place="${places%% *}"
    if [[ -n "$owed" ]]; then
        place="${owed%% *}"
    elif [[ -z "$plain" && ( "$1" == -* || -z "$places" ) ]]; then
        place=option
    fi
    case "$place" in
    first | topic) key="$place$quiet" ;;
    command) key="$at$asked" ;;
    named) key="${at%% *}" ;;
    edit) key="${at%% *} +" ;;
    plus | more) key=+ ;;
    option) key="- $at" ;;
    *) key="$place" ;;
    esac
}

# Sets found to the words of a key.
_arwen_words() {
    case "$1" in
    'first') found=(macho elf show patchelf install-name-tool help) ;;
    'first -q') found=(macho elf show help) ;;
    'topic') found=(macho elf show patchelf install-name-tool) ;;
    'topic -q') found=(macho elf show) ;;
    '+') found=(+) ;;
    'abi') found=(sysv hpux netbsd linux hurd gnu-hurd 'gnu hurd' solaris aix irix freebsd tru64 modesto openbsd openvms nsk aros fenixos cloudabi) ;;
    '- ') found=(-q --quiet -h --help -V --version) ;;
    '- help' | '- macho help' | '- elf help') found=(-q --quiet) ;;
    '- show') found=(--json -q --quiet -h --help) ;;
    'macho') found=(delete-rpath change-rpath add-rpath change-install-name change-install-id apply sign verify help) ;;
    '- macho' | '- macho delete-rpath' | '- macho change-rpath' | '- macho add-rpath' | '- macho change-install-name' | '- macho change-install-id') found=(--sign -q --quiet -h --help) ;;
    'macho --sign') found=(delete-rpath change-rpath add-rpath change-install-name change-install-id apply) ;;
    '- macho apply') found=(--sign -q --quiet -h --help) ;;
    'macho +') found=(delete-rpath change-rpath add-rpath change-install-name change-install-id) ;;
    '- macho sign' | '- macho verify' | '- elf print-rpath' | '- elf print-needed' | '- elf print-soname' | '- elf print-interpreter' | '- elf print-os-abi' | '- elf print-exec-stack') found=(-q --quiet -h --help) ;;
    'elf') found=(add-debug-tag clear-exec-stack force-rpath no-default-lib remove-rpath set-exec-stack add-rpath set-rpath set-interpreter set-os-abi set-soname set-page-size clear-symbol-version add-needed remove-needed replace-needed replace-library rename-dynamic-symbols apply shrink-rpath rename-symbols delete-symbols rename-sections delete-sections print-rpath print-needed print-soname print-interpreter print-os-abi print-exec-stack help) ;;
    '- elf' | '- elf add-debug-tag' | '- elf clear-exec-stack' | '- elf force-rpath' | '- elf no-default-lib' | '- elf remove-rpath' | '- elf set-exec-stack' | '- elf add-rpath' | '- elf set-rpath' | '- elf set-interpreter' | '- elf set-os-abi' | '- elf set-soname' | '- elf set-page-size' | '- elf clear-symbol-version' | '- elf add-needed' | '- elf remove-needed' | '- elf replace-needed' | '- elf replace-library' | '- elf rename-dynamic-symbols' | '- elf apply' | '- elf rename-symbols' | '- elf delete-symbols' | '- elf rename-sections' | '- elf delete-sections') found=(--move-dynamic -q --quiet -h --help) ;;
    'elf --move-dynamic') found=(add-debug-tag clear-exec-stack force-rpath no-default-lib remove-rpath set-exec-stack add-rpath set-rpath set-interpreter set-os-abi set-soname set-page-size clear-symbol-version add-needed remove-needed replace-needed replace-library rename-dynamic-symbols apply rename-symbols delete-symbols rename-sections delete-sections) ;;
    'elf +') found=(add-debug-tag clear-exec-stack force-rpath no-default-lib remove-rpath set-exec-stack add-rpath set-rpath set-interpreter set-os-abi set-soname set-page-size clear-symbol-version add-needed remove-needed replace-needed replace-library rename-dynamic-symbols rename-symbols delete-symbols rename-sections delete-sections) ;;
    '- elf shrink-rpath') found=(-a --allowed-rpath-prefixes -q --quiet -h --help) ;;
    '- patchelf') found=(--print-interpreter --print-os-abi --print-soname --print-rpath --print-needed --print-execstack --set-interpreter --interpreter --set-os-abi --set-soname --set-rpath --add-rpath --remove-rpath --shrink-rpath --allowed-rpath-prefixes --force-rpath --add-needed --remove-needed --replace-needed --no-default-lib --add-debug-tag --clear-symbol-version --rename-dynamic-symbols --clear-execstack --set-execstack --output --page-size --no-sort --debug -h --help --version) ;;
    '- install-name-tool') found=(-add_rpath -prepend_rpath -rpath -delete_rpath -delete_all_rpaths -change -id -h --help -V --version) ;;
    esac
}

# Sets words to those of the line up to the cursor. Bash splits a word at = and : too, which is undone.
_arwen_line() {
    local i part rest="${COMP_LINE:0:COMP_POINT}"
    words=()
    for ((i = 0; i <= COMP_CWORD; i++)); do
        part="${COMP_WORDS[i]}"
        if [[ -z "$COMP_LINE" || "$i" -eq 0 || "$rest" == [[:space:]]* ]]; then
            words+=("")
        fi
        rest="${rest#"${rest%%[![:space:]]*}"}"
        if [[ -n "$COMP_LINE" && "$i" -eq "$COMP_CWORD" ]]; then part="$rest"; fi
        words[${#words[@]}-1]+="$part"
        rest="${rest#"$part"}"
    done
}

# Offers the files, or the folders, that begin with the word at the cursor; where there is none, bash looks for files itself.
_arwen_files() {
    local it
    compopt -o filenames 2>/dev/null
    while IFS= read -r it; do COMPREPLY+=("${it#"$kept"}"); done < <(compgen "$1" -- "$cur")
    [[ ${#COMPREPLY[@]} -gt 0 ]] || compopt -o default 2>/dev/null
}

_arwen() {
    local at= places=first owed= plain= quiet= asked= place= key= cur kept= i it
    local -a words found
    _arwen_line
    case "${words[0]##*/}" in
    patchelf) at=patchelf ;;
    install_name_tool) at=install-name-tool ;;
    esac
    [[ -z "$at" ]] || _arwen_places "$at"
    for ((i = 1; i < ${#words[@]} - 1; i++)); do _arwen_step "${words[i]}"; done
    cur="${words[${#words[@]}-1]}"
    [[ $# -lt 2 ]] || kept="${cur%"$2"}"
    _arwen_place "$cur"
    COMPREPLY=()
    case "$place" in
    file | files) _arwen_files -f; return ;;
    folder) _arwen_files -d; return ;;
    esac
    _arwen_words "$key"
    for it in "${found[@]}"; do
        printf -v it %q "$it"
        [[ "$it" != "$cur"* ]] || COMPREPLY+=("${it#"$kept"}")
    done
}

# Completes a name by the same function, where it is a link to the program.
_arwen_link() {
    case "$(readlink -f -- "$(type -P "$1")" 2>/dev/null)" in
    */arwen) complete -F _arwen "$1" ;;
    esac
}

complete -F _arwen arwen
_arwen_link patchelf
_arwen_link install_name_tool
