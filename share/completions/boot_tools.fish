# Completion of boot_tools, and of its front espctl, for fish.
#
# A row is `WORDS|OPERANDS|OPTIONS|TEXT`: the operands by their kinds, each option as `TEXT:TAKEN:KIND`, and what the command does.

# --- rows: written by tools/completions
set -g __boot_tools_rows \
    'ukify build||--stub:required:file --linux:required:file --output:required:file --os-release:once:text-or-file --cmdline:once:text-or-file --devicetree:once:file --uname:once:text --splash:once:file --pcrpkey:once:file --initrd:repeated:file --microcode:once:file --section:repeated:section --sbat:once:text-or-file --measure:flag:|builds an image of a stub, a kernel and further parts' \
    'ukify inspect|file|--json:flag:|prints the sections of an image, with their sizes and digests' \
    'measure calculate||--linux:required:file --osrel:once:file --cmdline:once:file --initrd:once:file --ucode:once:file --splash:once:file --dtb:once:file --uname:once:file --sbat:once:file --pcrpkey:once:file --bank:repeated:bank --phase:repeated:phase --json:flag:|predicts PCR 11 from the files of the parts' \
    'measure image|file|--bank:repeated:bank --phase:repeated:phase --json:flag:|prints the values of PCR 11 of an image' \
    'bootctl list||--esp-path:once:folder --json:flag:|prints the boot entries in the order of the menu' \
    'bootctl unlink|entry|--esp-path:once:folder|removes the file of an entry' \
    'bootctl kernel-identify|file||prints uki, pe or unknown' \
    'tidy||--esp-path:once:folder|removes temporary files that a stopped run has left among entries and images' \
    'install|file image-name|--tries:once:number --esp-path:once:folder|puts an image among the entries' \
    'boot||--esp-path:once:folder|counts a boot of the first entry, as the boot loader does; never on a live partition' \
    'bless good|counted-path|--esp-path:once:folder|takes the counter off an entry' \
    'bless bad|counted-path|--esp-path:once:folder|leaves an entry no tries' \
    'bless indeterminate|counted-path|--esp-path:once:folder|takes good or bad back' \
    'bless status|counted-path|--esp-path:once:folder|prints good, bad or indeterminate' \
    'loader show||--esp-path:once:folder|prints which entry the loader takes, and the timeout of the menu' \
    'loader set-default|id|--esp-path:once:folder|makes an entry the default, by a pattern as NAME[.+]*' \
    'loader set-timeout|timeout|--esp-path:once:folder|changes how many seconds the menu waits' \
    'type1 install|entry-name|--linux:required:file --initrd:repeated:file --title:once:text --version:once:text --machine-id:once:text --sort-key:once:text --options:once:text --esp-path:once:folder|copies a kernel and its initrds, and writes the entry that names them' \
    'type1 cleanup||--esp-path:once:folder|removes the copied kernels and initrds that no entry names' \
    'keep|number|--per-key:flag: --dry-run:flag: --esp-path:once:folder|keeps the first N entries of the menu, and removes the files of all others' \
    'script|||carries out the lines of standard input' \
    'demo|seed number||carries out N random commands in memory'
set -g __boot_tools_front_rows \
    'bootctl list||--esp-path:once:folder --json:flag: --short:flag:|prints the boot entries in the order of the menu' \
    'keep|number|--per-key:flag: --dry-run:flag: --esp-path:once:folder --force:flag:|keeps the first N entries of the menu, and removes the files of all others' \
    'status||--esp-path:once:folder|prints the partitions, the booted entry, the default, and what a stopped run has left' \
    'cmdline|file||prints the command line of an image' \
    'help|||lists the commands, or tells of one'
set -g __boot_tools_banks \
    'sha1' \
    'sha256' \
    'sha384' \
    'sha512'
set -g __boot_tools_phases \
    'enter-initrd' \
    'enter-initrd:leave-initrd' \
    'enter-initrd:leave-initrd:sysinit' \
    'enter-initrd:leave-initrd:sysinit:ready'
set -g __boot_tools_option_texts \
    '--stub|the stub of systemd' \
    '--linux|the kernel' \
    '--output|where the image is written' \
    '--os-release|a text with the title, or @ and the path of its file' \
    '--osrel|the file with the title' \
    '--cmdline|the command line of the kernel' \
    '--devicetree|the devicetree' \
    '--dtb|the devicetree' \
    '--uname|the release of the kernel' \
    '--splash|the picture' \
    '--pcrpkey|the public key of signed values' \
    '--initrd|an initrd' \
    '--microcode|microcode, for stubs from 256 on' \
    '--ucode|microcode' \
    '--section|a further section, NAME:TEXT or NAME:@FILE' \
    '--sbat|SBAT lines' \
    '--measure|print the values of PCR 11 too' \
    '--bank|one bank alone' \
    '--phase|one phase alone' \
    '--json|one line of JSON' \
    '--esp-path|where the partition is mounted' \
    '--tries|how often the loader tries it' \
    '--title|the title in the menu' \
    '--version|the version, by which the menu goes' \
    '--machine-id|the machine ID' \
    '--sort-key|the sort-key, by which the menu goes first' \
    '--options|the command line of the kernel' \
    '--per-key|by the menu of each sort-key' \
    '--dry-run|print what would go, and change nothing' \
    '--short|a line an entry, with a mark at the default' \
    '--force|also if an entry that boots would go for one that does not'
# --- end of rows

# The rows there are, the front's own before those of the program.
function __boot_tools_all_rows
    __boot_tools_is_front; and printf '%s\n' $__boot_tools_front_rows
    printf '%s\n' $__boot_tools_rows
end

# The row of a command, by its words.
function __boot_tools_row_of
    for row in (__boot_tools_all_rows)
        if string match -q -- "$argv[1]|*" $row
            echo $row
            return
        end
    end
    return 1
end

# How an option is taken, or what its values are: its text, the place of what is asked for, and all options.
function __boot_tools_of_option
    for option in $argv[3..]
        set -l parts (string split : -- $option)
        if test "$parts[1]" = "$argv[1]"
            echo $parts[$argv[2]]
            return
        end
    end
end

# Whether the line is one of the front, which takes paths as they are.
function __boot_tools_is_front
    string match -qr -- '(^|/)espctl$' (commandline -opc)[1]
end

# Files below the folder that the program starts in, which is what a leading `/` means too. What stands before the path in the word, the
# path as far as it is typed, and `folder` for folders alone.
function __boot_tools_files
    set -l slashes ''
    __boot_tools_is_front; or set slashes (string match -r '^/*' -- $argv[2])
    set -l base (string sub -s (math (string length -- "$slashes") + 1) -- $argv[2])
    for it in $base*
        if test -d $it
            echo $argv[1]$slashes$it/
        else if test "$argv[3]" != folder
            echo $argv[1]$slashes$it
        end
    end
end

# What may stand for a value: its kind, what stands before it in the word, the value as far as it is typed, and the folders of boot files.
function __boot_tools_value
    set -l files
    for esp in $argv[4..]
        __boot_tools_is_front; or set esp ./(string replace -r '^/' '' -- $esp)
        for it in $esp/EFI/Linux/*.efi $esp/loader/entries/*.conf
            test -f $it; and set -a files (string sub -s (math (string length -- $esp) + 1) -- $it)
        end
    end
    set -l names (string replace -r '.*/' '' -- $files)
    switch "$argv[1]"
        case file folder
            __boot_tools_files "$argv[2]" "$argv[3]" $argv[1]
        case text-or-file
            if string match -q -- '@*' $argv[3]
                __boot_tools_files "$argv[2]@" (string sub -s 2 -- $argv[3]) file
            end
        case section
            if set -l parts (string match -r -- '^([^:]*:@)(.*)$' $argv[3])
                __boot_tools_files "$argv[2]$parts[2]" "$parts[3]" file
            end
        case bank
            printf '%s\n' $argv[2]$__boot_tools_banks
        case phase
            printf '%s\n' $argv[2]$__boot_tools_phases
        case timeout
            printf '%s\n' menu-force menu-hidden
        case entry
            printf '%s\n' $names
        case counted-path
            string match -r -- '.*\+[0-9]+(?:-[0-9]+)?\.[a-z]+$' $files
        case id
            string replace -r -- '\+[0-9]+(?:-[0-9]+)?\.[a-z]+$' '[.+]*' $names | sort -u
        case image-name
            string match -- '*.efi' $names | string replace -r -- '(\+[0-9]+(-[0-9]+)?)?\.[a-z]+$' '' | sort -u
        case entry-name
            string match -- '*.conf' $names | string replace -r -- '(\+[0-9]+(-[0-9]+)?)?\.[a-z]+$' '' | sort -u
    end
end

# The options that are still free to be given: those that are given, and all of them behind `--all`.
function __boot_tools_options
    set -l at (contains -i -- --all $argv)
    set -l given $argv[1..$at]
    for option in $argv[(math $at + 1)..]
        set -l parts (string split : -- $option)
        if test "$parts[2]" != repeated; and contains -- $parts[1] $given
            continue
        end
        set -l text (string match -- "$parts[1]|*" $__boot_tools_option_texts | string replace -r '^[^|]*\|' '')
        test "$parts[2]" = flag; or set parts[1] $parts[1]=
        printf '%s\t%s\n' $parts[1] "$text"
    end
end

# The first words of all commands, or the verbs of the command that is named, with what each does.
function __boot_tools_commands
    for row in (__boot_tools_all_rows)
        set -l word (string replace -r '\|.*' '' -- $row)
        set -l text (string replace -r '.*\|' '' -- $row)
        if set -q argv[1]
            string match -q -- "$argv[1] *" $word; and printf '%s\t%s\n' (string replace -r '^\S+ ' '' -- $word) $text
        else if not string match -q -- '* *' $word
            printf '%s\t%s\n' $word $text
        else
            set -l verbs (__boot_tools_all_rows | string match -- (string replace -r ' .*' ' *' -- $word) | string replace -r '^\S+ ([^|]*).*' '$1' | sort -u)
            printf '%s\t%s\n' (string replace -r ' .*' '' -- $word) (string join ', ' $verbs)
        end
    end | sort -u
end

# The folder of boot files that the words name, without a slash behind it. The front takes the mounted partitions otherwise.
function __boot_tools_esp
    set -l esp efi
    if __boot_tools_is_front
        set esp
        for it in /efi /boot /boot/efi
            test "$(stat -f -c %T $it 2>/dev/null)" = msdos; and set -a esp $it
        end
    end
    for at in (seq (count $argv))
        switch $argv[$at]
            case '--esp-path=*'
                set esp (string replace -r '^[^=]*=' '' -- $argv[$at])
            case --esp-path
                set -q argv[(math $at + 1)]; and set esp $argv[(math $at + 1)]
        end
    end
    string replace -r '/$' '' -- $esp
end

# All that may stand at the cursor.
function __boot_tools_complete
    set -l words (commandline -opc)
    set -l cur (commandline -ct)
    set -l first 3
    if test (count $words) -eq 1
        __boot_tools_commands
        if __boot_tools_is_front
            printf '%s\n' --help --version
            __boot_tools_commands bootctl # the front lets one leave that word out
        end
        return
    end
    if __boot_tools_is_front; and __boot_tools_row_of "bootctl $words[2]" >/dev/null # the front lets one leave that word out
        set words $words[1] bootctl $words[2..]
    end
    set -l row (__boot_tools_row_of $words[2])
    if test -z "$row"
        if test (count $words) -eq 2
            __boot_tools_commands $words[2]
            return
        end
        set row (__boot_tools_row_of "$words[2] $words[3]"); or return
        set first 4
    end
    set -l parts (string split '|' -- $row)
    set -l kinds (string split -n ' ' -- $parts[2])
    set -l options (string split -n ' ' -- $parts[3])
    set -l given
    set -l open
    set -l is_over
    set -l operands 0
    for word in $words[$first..]
        if test -n "$open"
            set open
        else if test -z "$is_over"; and test "$word" = --
            set is_over 1
        else if test -z "$is_over"; and string match -q -- '--*' $word
            set -a given (string replace -r '=.*' '' -- $word)
            if not string match -q -- '*=*' $word; and test "$(__boot_tools_of_option $word 2 $options)" != flag
                set open $word
            end
        else
            set operands (math $operands + 1)
        end
    end
    set -l esp (__boot_tools_esp $words)
    if test -n "$open"
        __boot_tools_value "$(__boot_tools_of_option $open 3 $options)" '' "$cur" $esp
    else if test -z "$is_over"; and string match -q -- '--*=*' $cur
        set -l text (string replace -r '=.*' '' -- $cur)
        __boot_tools_value "$(__boot_tools_of_option $text 3 $options)" "$text=" (string replace -r '^[^=]*=' '' -- $cur) $esp
    else if test -z "$is_over"; and string match -q -- '-*' $cur; or test $operands -ge (count $kinds)
        test -z "$is_over"; and __boot_tools_options $given --all $options
    else
        __boot_tools_value $kinds[(math $operands + 1)] '' "$cur" $esp
    end
end

complete -c boot_tools -f -a '(__boot_tools_complete)'
complete -c espctl -f -a '(__boot_tools_complete)'
