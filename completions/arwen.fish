# fish completion for arwen, and for links to it that are named patchelf or install_name_tool

# Prints what stands behind these words.
function __arwen_places
    switch "$argv[1]"
        case 'macho' 'elf'
            printf '%s\n' command
        case 'show' 'patchelf'
            printf '%s\n' files
        case 'help'
            printf '%s\n' topic end
        case 'macho help' 'elf help'
            printf '%s\n' named end
        case 'macho delete-rpath' 'macho add-rpath' 'macho change-install-id' 'elf add-rpath' 'elf set-rpath' 'elf set-soname' 'elf set-page-size' 'elf clear-symbol-version'
            printf '%s\n' text file
        case 'macho change-rpath' 'macho change-install-name'
            printf '%s\n' text text file
        case 'macho apply' 'elf apply'
            printf '%s\n' file edit
        case 'macho + delete-rpath' 'macho + add-rpath' 'macho + change-install-id' 'elf + add-rpath' 'elf + set-rpath' 'elf + set-interpreter' 'elf + set-soname' 'elf + set-page-size' 'elf + clear-symbol-version'
            printf '%s\n' text plus
        case 'macho + change-rpath' 'macho + change-install-name'
            printf '%s\n' text text plus
        case 'macho sign' 'macho verify' 'elf add-debug-tag' 'elf clear-exec-stack' 'elf force-rpath' 'elf no-default-lib' 'elf remove-rpath' 'elf set-exec-stack' 'elf shrink-rpath' 'elf print-rpath' 'elf print-needed' 'elf print-soname' 'elf print-interpreter' 'elf print-os-abi' 'elf print-exec-stack' 'install-name-tool'
            printf '%s\n' file
        case 'elf set-interpreter'
            printf '%s\n' file file
        case 'elf set-os-abi'
            printf '%s\n' abi file
        case 'elf add-needed' 'elf remove-needed' 'elf replace-needed' 'elf replace-library' 'elf rename-dynamic-symbols' 'elf rename-symbols' 'elf delete-symbols' 'elf rename-sections' 'elf delete-sections'
            printf '%s\n' file texts
        case 'elf + add-debug-tag' 'elf + clear-exec-stack' 'elf + force-rpath' 'elf + no-default-lib' 'elf + remove-rpath' 'elf + set-exec-stack'
            printf '%s\n' plus
        case 'elf + set-os-abi'
            printf '%s\n' abi plus
        case 'elf + add-needed' 'elf + remove-needed' 'elf + replace-needed' 'elf + replace-library' 'elf + rename-dynamic-symbols' 'elf + rename-symbols' 'elf + delete-symbols' 'elf + rename-sections' 'elf + delete-sections'
            printf '%s\n' more
    end
end

# Prints what an option takes.
function __arwen_owed
    switch "$argv[1]"
        case 'elf shrink-rpath -a' 'elf shrink-rpath --allowed-rpath-prefixes'
            printf '%s\n' folder
        case 'patchelf --set-interpreter' 'patchelf --interpreter' 'patchelf --rename-dynamic-symbols' 'patchelf --output'
            printf '%s\n' file
        case 'patchelf --set-os-abi'
            printf '%s\n' abi
        case 'patchelf --set-soname' 'patchelf --set-rpath' 'patchelf --add-rpath' 'patchelf --allowed-rpath-prefixes' 'patchelf --add-needed' 'patchelf --remove-needed' 'patchelf --clear-symbol-version' 'patchelf --page-size' 'install-name-tool -add_rpath' 'install-name-tool -prepend_rpath' 'install-name-tool -delete_rpath' 'install-name-tool -id'
            printf '%s\n' text
        case 'patchelf --replace-needed' 'install-name-tool -rpath' 'install-name-tool -change'
            printf '%s\n' text text
    end
end

# Prints the words of a key, with what they mean.
function __arwen_words
    switch "$argv[1]"
        case 'first'
            printf '%s\t%s\n' \
                'macho' 'Edit a Mach-O file' \
                'elf' 'Edit or print an ELF file' \
                'show' 'Tell what files are, and what they ask of a loader' \
                'patchelf' 'Take a line of patchelf 0.18' \
                'install-name-tool' 'Take a line of install_name_tool' \
                'help' 'Print help'
        case 'first -q'
            printf '%s\t%s\n' \
                'macho' 'Edit a Mach-O file' \
                'elf' 'Edit or print an ELF file' \
                'show' 'Tell what files are, and what they ask of a loader' \
                'help' 'Print help'
        case 'topic'
            printf '%s\t%s\n' \
                'macho' 'Edit a Mach-O file' \
                'elf' 'Edit or print an ELF file' \
                'show' 'Tell what files are, and what they ask of a loader' \
                'patchelf' 'Take a line of patchelf 0.18' \
                'install-name-tool' 'Take a line of install_name_tool'
        case 'topic -q'
            printf '%s\t%s\n' \
                'macho' 'Edit a Mach-O file' \
                'elf' 'Edit or print an ELF file' \
                'show' 'Tell what files are, and what they ask of a loader'
        case '+'
            printf '%s\t%s\n' \
                '+' 'Another edit'
        case 'abi'
            printf '%s\n' \
                'sysv' \
                'hpux' \
                'netbsd' \
                'linux' \
                'hurd' \
                'gnu-hurd' \
                'gnu hurd' \
                'solaris' \
                'aix' \
                'irix' \
                'freebsd' \
                'tru64' \
                'modesto' \
                'openbsd' \
                'openvms' \
                'nsk' \
                'aros' \
                'fenixos' \
                'cloudabi'
        case '- '
            printf '%s\t%s\n' \
                '-q' 'Leave out notes' \
                '--quiet' 'Leave out notes' \
                '-h' 'Print help' \
                '--help' 'Print help' \
                '-V' 'Print the version' \
                '--version' 'Print the version'
        case '- help' '- macho help' '- elf help'
            printf '%s\t%s\n' \
                '-q' 'Leave out notes' \
                '--quiet' 'Leave out notes'
        case '- show'
            printf '%s\t%s\n' \
                '--json' 'Tell of each file in one line of JSON' \
                '-q' 'Leave out notes' \
                '--quiet' 'Leave out notes' \
                '-h' 'Print help' \
                '--help' 'Print help'
        case 'macho'
            printf '%s\t%s\n' \
                'delete-rpath' 'Remove a run path' \
                'change-rpath' 'Put a run path in the place of another' \
                'add-rpath' 'Add a run path' \
                'change-install-name' 'Put a library name in the place of another' \
                'change-install-id' 'Change the install id of a shared library' \
                'apply' 'Make several edits, all or none' \
                'sign' 'Make all pages of ad-hoc code signatures fit' \
                'verify' 'Tell whether the pages of code signatures fit' \
                'help' 'Print help'
        case '- macho' '- macho delete-rpath' '- macho change-rpath' '- macho add-rpath' '- macho change-install-name' '- macho change-install-id'
            printf '%s\t%s\n' \
                '--sign' 'The pages that the edit touched fit again in ad-hoc code signatures' \
                '-q' 'Leave out notes' \
                '--quiet' 'Leave out notes' \
                '-h' 'Print help' \
                '--help' 'Print help'
        case 'macho --sign'
            printf '%s\t%s\n' \
                'delete-rpath' 'Remove a run path' \
                'change-rpath' 'Put a run path in the place of another' \
                'add-rpath' 'Add a run path' \
                'change-install-name' 'Put a library name in the place of another' \
                'change-install-id' 'Change the install id of a shared library' \
                'apply' 'Make several edits, all or none'
        case '- macho apply'
            printf '%s\t%s\n' \
                '--sign' 'The pages that they touched fit again in ad-hoc code signatures' \
                '-q' 'Leave out notes' \
                '--quiet' 'Leave out notes' \
                '-h' 'Print help' \
                '--help' 'Print help'
        case 'macho +'
            printf '%s\t%s\n' \
                'delete-rpath' 'Remove a run path' \
                'change-rpath' 'Put a run path in the place of another' \
                'add-rpath' 'Add a run path' \
                'change-install-name' 'Put a library name in the place of another' \
                'change-install-id' 'Change the install id of a shared library'
        case '- macho sign' '- macho verify' '- elf print-rpath' '- elf print-needed' '- elf print-soname' '- elf print-interpreter' '- elf print-os-abi' '- elf print-exec-stack'
            printf '%s\t%s\n' \
                '-q' 'Leave out notes' \
                '--quiet' 'Leave out notes' \
                '-h' 'Print help' \
                '--help' 'Print help'
        case 'elf'
            printf '%s\t%s\n' \
                'add-debug-tag' 'Add an entry for a debugger' \
                'clear-exec-stack' 'Take the permission to run from the stack' \
                'force-rpath' 'Make every DT_RUNPATH a DT_RPATH' \
                'no-default-lib' 'Leave out the default directories' \
                'remove-rpath' 'Remove the run path' \
                'set-exec-stack' 'Give the stack the permission to run' \
                'add-rpath' 'Add a directory to the run path' \
                'set-rpath' 'Set the run path' \
                'set-interpreter' 'Set the interpreter' \
                'set-os-abi' 'Set the ABI byte' \
                'set-soname' 'Set the library\'s own name' \
                'set-page-size' 'Set the page size' \
                'clear-symbol-version' 'Clear the version of dynamic symbols' \
                'add-needed' 'Add needed libraries' \
                'remove-needed' 'Remove needed libraries' \
                'replace-needed' 'Replace needed libraries, all at once' \
                'replace-library' 'Replace libraries with the versions needed of them, all at once' \
                'rename-dynamic-symbols' 'Rename dynamic symbols, all at once' \
                'apply' 'Make several edits, all or none' \
                'shrink-rpath' 'Leave out of the run path directories that have no needed library' \
                'rename-symbols' 'Rename symbols for link editors and the loader, all at once' \
                'delete-symbols' 'Delete symbols for link editors and the loader' \
                'rename-sections' 'Rename sections, all at once' \
                'delete-sections' 'Delete sections' \
                'print-rpath' 'Print the run path' \
                'print-needed' 'Print the needed libraries' \
                'print-soname' 'Print the library\'s own name' \
                'print-interpreter' 'Print the interpreter' \
                'print-os-abi' 'Print the ABI byte' \
                'print-exec-stack' 'Print whether the stack may be run' \
                'help' 'Print help'
        case '- elf' '- elf add-debug-tag' '- elf clear-exec-stack' '- elf force-rpath' '- elf no-default-lib' '- elf remove-rpath' '- elf set-exec-stack' '- elf add-rpath' '- elf set-rpath' '- elf set-interpreter' '- elf set-os-abi' '- elf set-soname' '- elf set-page-size' '- elf clear-symbol-version' '- elf add-needed' '- elf remove-needed' '- elf replace-needed' '- elf replace-library' '- elf rename-dynamic-symbols' '- elf apply' '- elf rename-symbols' '- elf delete-symbols' '- elf rename-sections' '- elf delete-sections'
            printf '%s\t%s\n' \
                '--move-dynamic' 'The dynamic section may move, to make room for entries and program headers' \
                '-q' 'Leave out notes' \
                '--quiet' 'Leave out notes' \
                '-h' 'Print help' \
                '--help' 'Print help'
        case 'elf --move-dynamic'
            printf '%s\t%s\n' \
                'add-debug-tag' 'Add an entry for a debugger' \
                'clear-exec-stack' 'Take the permission to run from the stack' \
                'force-rpath' 'Make every DT_RUNPATH a DT_RPATH' \
                'no-default-lib' 'Leave out the default directories' \
                'remove-rpath' 'Remove the run path' \
                'set-exec-stack' 'Give the stack the permission to run' \
                'add-rpath' 'Add a directory to the run path' \
                'set-rpath' 'Set the run path' \
                'set-interpreter' 'Set the interpreter' \
                'set-os-abi' 'Set the ABI byte' \
                'set-soname' 'Set the library\'s own name' \
                'set-page-size' 'Set the page size' \
                'clear-symbol-version' 'Clear the version of dynamic symbols' \
                'add-needed' 'Add needed libraries' \
                'remove-needed' 'Remove needed libraries' \
                'replace-needed' 'Replace needed libraries, all at once' \
                'replace-library' 'Replace libraries with the versions needed of them, all at once' \
                'rename-dynamic-symbols' 'Rename dynamic symbols, all at once' \
                'apply' 'Make several edits, all or none' \
                'rename-symbols' 'Rename symbols for link editors and the loader, all at once' \
                'delete-symbols' 'Delete symbols for link editors and the loader' \
                'rename-sections' 'Rename sections, all at once' \
                'delete-sections' 'Delete sections'
        case 'elf +'
            printf '%s\t%s\n' \
                'add-debug-tag' 'Add an entry for a debugger' \
                'clear-exec-stack' 'Take the permission to run from the stack' \
                'force-rpath' 'Make every DT_RUNPATH a DT_RPATH' \
                'no-default-lib' 'Leave out the default directories' \
                'remove-rpath' 'Remove the run path' \
                'set-exec-stack' 'Give the stack the permission to run' \
                'add-rpath' 'Add a directory to the run path' \
                'set-rpath' 'Set the run path' \
                'set-interpreter' 'Set the interpreter' \
                'set-os-abi' 'Set the ABI byte' \
                'set-soname' 'Set the library\'s own name' \
                'set-page-size' 'Set the page size' \
                'clear-symbol-version' 'Clear the version of dynamic symbols' \
                'add-needed' 'Add needed libraries' \
                'remove-needed' 'Remove needed libraries' \
                'replace-needed' 'Replace needed libraries, all at once' \
                'replace-library' 'Replace libraries with the versions needed of them, all at once' \
                'rename-dynamic-symbols' 'Rename dynamic symbols, all at once' \
                'rename-symbols' 'Rename symbols for link editors and the loader, all at once' \
                'delete-symbols' 'Delete symbols for link editors and the loader' \
                'rename-sections' 'Rename sections, all at once' \
                'delete-sections' 'Delete sections'
        case '- elf shrink-rpath'
            printf '%s\t%s\n' \
                '-a' 'Leave out directories too that no such prefix begins' \
                '--allowed-rpath-prefixes' 'Leave out directories too that no such prefix begins' \
                '-q' 'Leave out notes' \
                '--quiet' 'Leave out notes' \
                '-h' 'Print help' \
                '--help' 'Print help'
        case '- patchelf'
            printf '%s\t%s\n' \
                '--print-interpreter' 'The interpreter' \
                '--print-os-abi' 'The ABI' \
                '--print-soname' 'The library\'s own name' \
                '--print-rpath' 'The run path' \
                '--print-needed' 'The needed libraries' \
                '--print-execstack' 'Whether the stack may be run' \
                '--set-interpreter' 'Set the interpreter' \
                '--interpreter' 'Set the interpreter' \
                '--set-os-abi' 'Set the ABI' \
                '--set-soname' 'Set the library\'s own name' \
                '--set-rpath' 'Set the run path' \
                '--add-rpath' 'Add to the run path' \
                '--remove-rpath' 'Remove the run path' \
                '--shrink-rpath' 'Leave out directories without a needed library' \
                '--allowed-rpath-prefixes' 'With --shrink-rpath: leave out those that none of these begins, which colons separate' \
                '--force-rpath' 'Keep the run path in DT_RPATH' \
                '--add-needed' 'Add a needed library' \
                '--remove-needed' 'Remove a needed library' \
                '--replace-needed' 'Rename a needed library' \
                '--no-default-lib' 'Leave out the default directories' \
                '--add-debug-tag' 'Add an entry for a debugger' \
                '--clear-symbol-version' 'Let the symbol be of no version' \
                '--rename-dynamic-symbols' 'Rename symbols, by a file with an old name and a new one on each line' \
                '--clear-execstack' 'Forbid that the stack is run' \
                '--set-execstack' 'Let the stack be run' \
                '--output' 'Write the edited file there' \
                '--page-size' 'Passed over' \
                '--no-sort' 'Passed over' \
                '--debug' 'Passed over' \
                '-h' 'Print help' \
                '--help' 'Print help' \
                '--version' 'Print the version'
        case '- install-name-tool'
            printf '%s\t%s\n' \
                '-add_rpath' 'Add a run path' \
                '-prepend_rpath' 'Add a run path in front' \
                '-rpath' 'Change a run path' \
                '-delete_rpath' 'Remove a run path' \
                '-delete_all_rpaths' 'Remove all run paths' \
                '-change' 'Change the name by which a library is loaded' \
                '-id' 'Change the library\'s own name' \
                '-h' 'Print help' \
                '--help' 'Print help' \
                '-V' 'Print the version' \
                '--version' 'Print the version'
    end
end

# Prints what stands at the cursor, and the key of its words.
function __arwen_place
    set -l tokens (commandline -opc)
    set -l at ''
    set -l places first
    set -l owed
    set -l plain no
    set -l quiet ''
    set -l asked ''
    switch (string replace -r '.*/' '' -- $tokens[1])
        case patchelf
            set at patchelf
        case install_name_tool
            set at install-name-tool
    end
    set -e tokens[1]
    if test -n "$at"
        set places (__arwen_places $at)
    end
    for word in $tokens
        set -l half (string split -f 1 ' ' -- "$at")
        if set -q owed[1]
            set -e owed[1]
        else if test $plain = no -a "x$word" = x-- && string match -qr ' |^show$' -- "$at"
            set plain yes
        else if test $plain = no && string match -q -- '-*' $word
            if contains -- $word -q --quiet
                set quiet ' -q'
            else if test "$places[1]" = first
                set at end
                set places
            else if test "$places[1]" = command && not contains -- $word -h --help
                set asked " $word"
            end
            set owed (__arwen_owed "$at $word")
        else if string match -q '* apply' -- "$at" && test "$places[1]" != file -a "x$word" = x+
            set places edit
        else
            switch "$places[1]"
                case first
                    set at $word
                    set places (__arwen_places "$at")
                case command
                    set at "$at $word"
                    set places (__arwen_places "$at")
                case edit
                    set places (__arwen_places "$half + $word")
                case files texts more
                case '*'
                    set -e places[1]
            end
        end
    end
    set -l half (string split -f 1 ' ' -- "$at")
    set -l place "$places[1]"
    if set -q owed[1]
        set place $owed[1]
    else if test $plain = no && begin; not set -q places[1]; or string match -q -- '-*' (commandline -ct); end
        set place option
    end
    echo $place
    switch "$place"
        case first topic
            echo "$place$quiet"
        case command
            echo "$at$asked"
        case named
            echo "$half"
        case edit
            echo "$half +"
        case plus more
            echo +
        case option
            echo "- $at"
        case '*'
            echo "$place"
    end
end

# Prints the words at the cursor.
function __arwen_complete
    set -l found (__arwen_place)
    if test "$found[1]" = folder
        __fish_complete_directories (commandline -ct) ''
    else
        __arwen_words $found[2]
    end
end

# Whether a file stands at the cursor.
function __arwen_takes_file
    string match -qr '^files?$' -- (__arwen_place)[1]
end

# Whether the first word of the line is a link to the program.
function __arwen_is_link
    set -l first (commandline -opc)[1]
    set -l link (command -s -- (string replace -r '^~/' "$HOME/" -- $first))
    and string match -q '*/arwen' -- (realpath $link)
end

complete -c arwen -f -a '(__arwen_complete)'
complete -c arwen -n __arwen_takes_file -F
complete -c patchelf -n __arwen_is_link -f -a '(__arwen_complete)'
complete -c patchelf -n '__arwen_is_link; and __arwen_takes_file' -F
complete -c install_name_tool -n __arwen_is_link -f -a '(__arwen_complete)'
complete -c install_name_tool -n '__arwen_is_link; and __arwen_takes_file' -F
