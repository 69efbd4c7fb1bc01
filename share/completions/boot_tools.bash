# Completion of boot_tools, and of its front espctl, for bash, with the functions of bash-completion.
#
# A row is `WORDS|OPERANDS|OPTIONS|TEXT`: the operands by their kinds, each option as `TEXT:TAKEN:KIND`, and what the command does.

# --- rows: written by tools/completions
_boot_tools_rows=(
  'ukify build||--stub:required:file --linux:required:file --output:required:file --os-release:once:text-or-file --cmdline:once:text-or-file --devicetree:once:file --uname:once:text --splash:once:file --pcrpkey:once:file --initrd:repeated:file --microcode:once:file --section:repeated:section --sbat:once:text-or-file --measure:flag:|builds an image of a stub, a kernel and further parts'
  'ukify inspect|file|--json:flag:|prints the sections of an image, with their sizes and digests'
  'measure calculate||--linux:required:file --osrel:once:file --cmdline:once:file --initrd:once:file --ucode:once:file --splash:once:file --dtb:once:file --uname:once:file --sbat:once:file --pcrpkey:once:file --bank:repeated:bank --phase:repeated:phase --json:flag:|predicts PCR 11 from the files of the parts'
  'measure image|file|--bank:repeated:bank --phase:repeated:phase --json:flag:|prints the values of PCR 11 of an image'
  'bootctl list||--esp-path:once:folder --json:flag:|prints the boot entries in the order of the menu'
  'bootctl unlink|entry|--esp-path:once:folder|removes the file of an entry'
  'bootctl kernel-identify|file||prints uki, pe or unknown'
  'tidy||--esp-path:once:folder|removes temporary files that a stopped run has left among entries and images'
  'install|file image-name|--tries:once:number --esp-path:once:folder|puts an image among the entries'
  'boot||--esp-path:once:folder|counts a boot of the first entry, as the boot loader does; never on a live partition'
  'bless good|counted-path|--esp-path:once:folder|takes the counter off an entry'
  'bless bad|counted-path|--esp-path:once:folder|leaves an entry no tries'
  'bless indeterminate|counted-path|--esp-path:once:folder|takes good or bad back'
  'bless status|counted-path|--esp-path:once:folder|prints good, bad or indeterminate'
  'loader show||--esp-path:once:folder|prints which entry the loader takes, and the timeout of the menu'
  'loader set-default|id|--esp-path:once:folder|makes an entry the default, by a pattern as NAME[.+]*'
  'loader set-timeout|timeout|--esp-path:once:folder|changes how many seconds the menu waits'
  'type1 install|entry-name|--linux:required:file --initrd:repeated:file --title:once:text --version:once:text --machine-id:once:text --sort-key:once:text --options:once:text --esp-path:once:folder|copies a kernel and its initrds, and writes the entry that names them'
  'type1 cleanup||--esp-path:once:folder|removes the copied kernels and initrds that no entry names'
  'keep|number|--per-key:flag: --dry-run:flag: --esp-path:once:folder|keeps the first N entries of the menu, and removes the files of all others'
  'script|||carries out the lines of standard input'
  'demo|seed number||carries out N random commands in memory'
)
_boot_tools_front_rows=(
  'bootctl list||--esp-path:once:folder --json:flag: --short:flag:|prints the boot entries in the order of the menu'
  'keep|number|--per-key:flag: --dry-run:flag: --esp-path:once:folder --force:flag:|keeps the first N entries of the menu, and removes the files of all others'
  'status||--esp-path:once:folder|prints the partitions, the booted entry, the default, and what a stopped run has left'
  'cmdline|file||prints the command line of an image'
  'help|||lists the commands, or tells of one'
)
_boot_tools_banks=(
  'sha1'
  'sha256'
  'sha384'
  'sha512'
)
_boot_tools_phases=(
  'enter-initrd'
  'enter-initrd:leave-initrd'
  'enter-initrd:leave-initrd:sysinit'
  'enter-initrd:leave-initrd:sysinit:ready'
)
# --- end of rows

# The rows there are, the front's own before those of the program.
_boot_tools_all_rows() { printf '%s\n' ${front:+"${_boot_tools_front_rows[@]}"} "${_boot_tools_rows[@]}"; }

# The row of a command, by its words.
_boot_tools_row_of() {
  local row
  while IFS= read -r row; do
    [[ $row == "$1|"* ]] && printf '%s\n' "$row" && return
  done < <(_boot_tools_all_rows)
  return 1
}

# The first words of all commands, or the verbs of the command that is named.
_boot_tools_next_words() {
  local row
  while IFS= read -r row; do
    row=${row%%|*}
    if (($# == 0)); then
      printf '%s\n' "${row%% *}"
    elif [[ $row == "$1 "* ]]; then
      printf '%s\n' "${row#* }"
    fi
  done < <(_boot_tools_all_rows)
}

# How an option is taken, or what its values are: of a list of options, its text, and the place of what is asked for.
_boot_tools_of_option() {
  local option
  for option in $1; do
    if [[ $option == "$2:"* ]]; then
      IFS=: read -r -a option <<<"$option"
      printf '%s\n' "${option[$3]}"
      return
    fi
  done
}

# The names of the entry files below the folders of boot files, a line each, as seen from that folder.
_boot_tools_entries() {
  local it esp
  while IFS= read -r esp; do
    [[ $front ]] || esp=./${esp#/}
    for it in "$esp"/EFI/Linux/*.efi "$esp"/loader/entries/*.conf; do
      [[ -f $it ]] && printf '%s\n' "${it#"$esp"}"
    done
  done <<<"$1"
}

# What may stand for a value: of a kind, and with the folders of boot files, a line each.
_boot_tools_texts() {
  local esp=$2
  case $1 in
    bank) printf '%s\n' "${_boot_tools_banks[@]}" ;;
    phase) printf '%s\n' "${_boot_tools_phases[@]}" ;;
    timeout) printf '%s\n' menu-force menu-hidden ;;
    entry) _boot_tools_entries "$esp" | sed 's|.*/||' ;;
    counted-path) _boot_tools_entries "$esp" | grep -E '\+[0-9]+(-[0-9]+)?\.[a-z]+$' ;;
    id) _boot_tools_entries "$esp" | sed -E 's|.*/||; s/\+[0-9]+(-[0-9]+)?\.[a-z]+$/\\[.+\\]\\*/' | sort -u ;;
    image-name) _boot_tools_entries "$esp" | grep '\.efi$' | sed -E 's|.*/||; s/(\+[0-9]+(-[0-9]+)?)?\.[a-z]+$//' | sort -u ;;
    entry-name) _boot_tools_entries "$esp" | grep '\.conf$' | sed -E 's|.*/||; s/(\+[0-9]+(-[0-9]+)?)?\.[a-z]+$//' | sort -u ;;
  esac
}

# Offers files below the folder that the program starts in, which is what a leading `/` means too. The front takes paths as they are. $1 is
# what stands before the path in the word, $2 the path as far as it is typed, $3 the kind of files for compgen.
_boot_tools_offer_files() {
  local slashes='' it
  [[ $front ]] || slashes=${2%%[!/]*}
  compopt -o filenames
  while IFS= read -r it; do
    [[ -d $it ]] && it+=/
    COMPREPLY+=("$1$slashes$it")
  done < <(compgen "$3" -- "${2#"$slashes"}")
}

# Offers what may stand for a value. $1 is its kind, $2 what stands before it in the word, $3 the value as far as it is typed, $4 the
# folders of boot files.
_boot_tools_offer_value() {
  local it
  case $1 in
    file) _boot_tools_offer_files "$2" "$3" -f ;;
    folder) _boot_tools_offer_files "$2" "$3" -d ;;
    text-or-file) [[ $3 == @* ]] && _boot_tools_offer_files "$2@" "${3#@}" -f ;;
    section) [[ $3 == *:@* ]] && _boot_tools_offer_files "$2${3%%:@*}:@" "${3#*:@}" -f ;;
    *)
      while IFS= read -r it; do
        [[ $it == "$3"* ]] && COMPREPLY+=("$2$it")
      done < <(_boot_tools_texts "$1" "$4")
      ;;
  esac
}

# Offers the options that are still free to be given. $1 has all options, $2 those that are given, $3 what is typed.
_boot_tools_offer_options() {
  local option text takes
  for option in $1; do
    IFS=: read -r text takes _ <<<"$option"
    [[ $takes != repeated && $2 == *" $text "* ]] && continue
    [[ $takes != flag ]] && text+='='
    [[ $text == "$3"* ]] && COMPREPLY+=("$text")
  done
}

# Takes off of each word what readline keeps, which is all up to the last of the word's own breaks, and lets no space follow what
# is to go on.
_boot_tools_finish() {
  local breaks=${COMP_WORDBREAKS//[!=:@]/} kept=''
  [[ $breaks ]] && kept=${1%"${1##*["$breaks"]}"}
  COMPREPLY=("${COMPREPLY[@]#"$kept"}")
  if ((${#COMPREPLY[@]} == 1)) && [[ ${COMPREPLY[0]} == *[=/@] ]]; then
    compopt -o nospace
  fi
}

# What the words before the cursor say: `given`, `operands`, `open` and `is_over` of the caller. $1 is the place of the first word behind the
# command's own.
_boot_tools_read_words() {
  local at word
  for ((at = $1; at < cword; at++)); do
    word=${words[at]}
    if [[ $open ]]; then
      open=''
    elif [[ ! $is_over && $word == -- ]]; then
      is_over=1
    elif [[ ! $is_over && $word == --* ]]; then
      given+="${word%%=*} "
      [[ $word != *=* && $(_boot_tools_of_option "$options" "$word" 1) != flag ]] && open=$word
    else
      operands+=1
    fi
  done
}

# The folder of boot files that the line names, without a slash behind it. The front takes the mounted partitions otherwise, a line each.
_boot_tools_esp() {
  local at it esp=efi
  [[ ! $front ]] || esp=''
  for it in ${front:+/efi /boot /boot/efi}; do
    [[ $(stat -f -c %T "$it" 2>/dev/null) == msdos ]] && esp+=${esp:+$'\n'}$it
  done
  for ((at = 1; at < ${#words[@]}; at++)); do
    case ${words[at]} in
      --esp-path=*) esp=${words[at]#*=} ;;
      --esp-path) esp=${words[at + 1]} ;;
    esac
  done
  printf '%s\n' "${esp%/}"
}

_boot_tools() {
  # shellcheck disable=SC2034  # prev is set by _init_completion
  local cur prev words cword row options kinds first=2 front=''
  _init_completion -n =:@ || return
  [[ ${words[0]##*/} != espctl ]] || front='--help --version'
  if ((cword == 1)); then
    mapfile -t COMPREPLY < <(compgen -W "$(_boot_tools_next_words) ${front:+$front $(_boot_tools_next_words bootctl)}" -- "$cur")
    return
  fi
  if [[ $front ]] && _boot_tools_row_of "bootctl ${words[1]}" >/dev/null; then # the front lets one leave that word out
    words=("${words[0]}" bootctl "${words[@]:1}")
    cword=$((cword + 1))
  fi
  if ! row=$(_boot_tools_row_of "${words[1]}"); then
    if ((cword == 2)); then
      mapfile -t COMPREPLY < <(compgen -W "$(_boot_tools_next_words "${words[1]}")" -- "$cur")
      return
    fi
    row=$(_boot_tools_row_of "${words[1]} ${words[2]}") || return
    first=3
  fi
  IFS='|' read -r _ kinds options _ <<<"$row"
  read -r -a kinds <<<"$kinds"

  local given=' ' open='' is_over='' esp
  local -i operands=0
  _boot_tools_read_words "$first"
  esp=$(_boot_tools_esp)
  if [[ $open ]]; then
    _boot_tools_offer_value "$(_boot_tools_of_option "$options" "$open" 2)" '' "$cur" "$esp"
  elif [[ ! $is_over && $cur == --*=* ]]; then
    _boot_tools_offer_value "$(_boot_tools_of_option "$options" "${cur%%=*}" 2)" "${cur%%=*}=" "${cur#*=}" "$esp"
  elif [[ ! $is_over && $cur == -* ]] || ((operands >= ${#kinds[@]})); then
    [[ $is_over ]] || _boot_tools_offer_options "$options" "$given" "$cur"
  else
    _boot_tools_offer_value "${kinds[operands]}" '' "$cur" "$esp"
  fi
  _boot_tools_finish "$cur"
} &&
  complete -F _boot_tools boot_tools espctl
