# shellcheck shell=bash disable=SC2154  # tools/system-tests sources it, and sets the variables
# What espctl says and does beside the program, in a system of its own: entries that don't boot, two partitions, its own commands, its hints.
# And what tools/package and make say.

# An image and kernels without one on the partition of the system: 50 is the newest, and its kernel has gone.
prepare_menu() {
  prepare_front
  front /var/tmp/at ukify build --stub=stub --linux=kernel --os-release=@release '--cmdline=root=/dev/x quiet' --output=image
  local it
  for it in 47 50; do
    head -c "90$it" /dev/urandom >"$root/var/tmp/at/kernel-$it"
    front /var/tmp/at type1 install "debian-6.1.0-$it" "--linux=kernel-$it" --initrd=release --title=Debian "--version=6.1.0-$it" --sort-key=debian
  done
  rm "$root/boot/efi/boot_tools/$(sha256sum <"$root/var/tmp/at/kernel-50" | cut -d' ' -f1)"
}

# What is on the partitions, with the digest of each file.
everything() { (cd "$root" && find boot/efi boot/EFI boot/loader efi -type f -exec sha256sum {} + 2>/dev/null | sort); }

# says TEXT: standard error of the last command has a line of the front with it
says() { grep '^espctl: ' "$room/err" | grep -qF -- "$1" || { echo "the front doesn't say: $1"; cat "$room/err"; return 1; }; }

# An entry whose kernel isn't there is in the program's list, and the loader hides it: both commands say so, and the answer to what boots is
# the loader's. One without its initrd is in the loader's menu, and doesn't start.
tells_what_doesnt_boot() {
  local list
  prepare_menu
  ends 0 front / list
  list=$(in_root sh -c 'cd / && boot_tools bootctl list --esp-path=boot/efi')
  same "$list" "$(cat "$room/out")"
  grep -qE '^espctl: /boot/efi/loader/entries/debian-6.1.0-50.conf: its linux /boot_tools/[0-9a-f]{64} isn.t there: the loader hides it$' "$room/err"
  same 1 "$(wc -l <"$room/err")"
  ends 0 front / list --json
  same "$(in_root sh -c 'cd / && boot_tools bootctl list --json --esp-path=boot/efi')" "$(cat "$room/out")"
  says '/boot/efi/loader/entries/debian-6.1.0-50.conf: its linux'
  ends 0 front / loader show
  same 'chosen debian-6.1.0-47.conf
source /boot/efi/loader/entries/debian-6.1.0-47.conf
timeout none' "$(cat "$room/out")"
  says '/boot/efi/loader/entries/debian-6.1.0-50.conf: its linux'
  printf 'title x\nefi \\EFI\\none.efi\n' >"$root/boot/efi/loader/entries/x.conf"
  sed -i 's|^initrd.*|initrd /none|' "$root/boot/efi/loader/entries/debian-6.1.0-47.conf"
  ends 0 front / list
  says '/boot/efi/loader/entries/x.conf: its efi \EFI\none.efi isn'\''t there: the loader hides it'
  says '/boot/efi/loader/entries/debian-6.1.0-47.conf: its initrd /none isn'\''t there: the loader lists it and fails to start it'
  ends 0 front / loader show # as the loader takes it all the same
  has "$room/out" 'source /boot/efi/loader/entries/debian-6.1.0-47.conf'
  ends 0 front / loader set-default x.conf
  says 'the next boot takes /boot/efi/loader/entries/debian-6.1.0-47.conf'
  mkdir "$root/boot/efi/EFI" && touch "$root/boot/efi/EFI/none.efi"
  ends 0 front / list
  same 2 "$(wc -l <"$room/err")"
}

# `keep` removes no entry that boots for one that doesn't, and changes nothing then; with --force it does.
keeps_what_boots() {
  local before
  prepare_menu
  before=$(everything)
  ends 1 front / keep 1
  same "$before" "$(everything)"
  same '' "$(cat "$room/out")"
  says 'keep counts what doesn'\''t boot, and so it would remove what does: /boot/efi/loader/entries/debian-6.1.0-47.conf'
  says 'nothing has changed. First remove what doesn'\''t boot, by espctl unlink; or add --force'
  # shellcheck disable=SC2016  # the shell in the system sets it
  ends 1 in_root sh -c 'PATH=/tmp/front:$PATH && exec espctl keep 1 2>&-' # nobody hears why
  same "$before" "$(everything)"
  ends 0 front / keep 1 --dry-run
  same 'would unlink /boot/efi/loader/entries/debian-6.1.0-47.conf' "$(cat "$room/out")"
  says 'keep counts what doesn'\''t boot'
  ends 0 front / keep 2
  ends 1 front / keep --per-key -- 1
  ends 1 front / keep x
  same 'refusal 19: x is not a number here' "$(tail -n 1 "$room/err")"
  same "$before" "$(everything)"
  ends 0 front / keep 1 --force
  same 'unlinked /boot/efi/loader/entries/debian-6.1.0-47.conf' "$(cat "$room/out")"
  # A good entry that doesn't boot isn't the good one that is kept beside untried ones.
  front /var/tmp/at install image debian-3 --tries=3 && front /var/tmp/at install image debian-1
  mv "$root/boot/efi/loader/entries/debian-6.1.0-50.conf" "$root/boot/efi/loader/entries/debian-2.conf"
  sed -i 's/^version.*/version 2/; s/^sort-key.*/sort-key debian/' "$root/boot/efi/loader/entries/debian-2.conf"
  before=$(everything)
  ends 1 front / keep 1
  same "$before" "$(everything)"
  ends 0 front / unlink debian-2.conf
  ends 0 front / keep 1
  same 'nothing to remove' "$(cat "$room/out")"
}

# Says that these folders are FAT partitions, each on a disk of its own and of the type that is named behind it, or of none.
fat_at() {
  local it fat='' types=''
  for it in "$@"; do
    fat+="*\" ${it%%:*}/.\") echo msdos ;; "
    types+="${it%%:*}) echo ${it#*:} ;; "
  done
  # shellcheck disable=SC2016  # the scripts' own variables
  {
    printf '#!/bin/sh\nfor it; do :; done\ncase "$*" in *%%d*) echo "$it" ;; %s*) echo ext2/ext3 ;; esac\n' "$fat" >"$root/tmp/front/stat"
    printf '#!/bin/sh\nfor it; do :; done\ncase $it in %sesac\n' "$types" >"$root/tmp/front/lsblk"
    printf '#!/bin/sh\nfor it; do :; done\necho "$it"\n' >"$root/tmp/front/findmnt"
  }
  chmod +x "$root"/tmp/front/*
}

esp_type=c12a7328-f81f-11d2-ba4b-00a0c93ec93b xbootldr_type=bc13c2ff-59e6-4262-a352-b275fd6f7172

# Two partitions, /efi and /boot, and an image for them.
prepare_two() {
  prepare_front
  clear_boot
  mkdir -p "$root/efi"
  fat_at "/efi:$esp_type" "/boot:$xbootldr_type"
  front /var/tmp/at ukify build --stub=stub --linux=kernel --os-release=@release --output=image
}

clear_boot() { rm -rf "$root"/boot/{EFI,loader,boot_tools} "$root"/efi "$root"/tmp/front/*; }

# The EFI system partition has loader.conf, and is told by its type, or by where it is mounted if nobody knows the types.
is_the_esp() { # is_the_esp FOLDER PARTITION..
  local esp=$1
  shift
  fat_at "$@"
  ends 0 front / loader set-timeout 5
  same 'timeout 5' "$(cat "$root$esp/loader/loader.conf")"
  says "$esp is the EFI system partition, /boot is XBOOTLDR: this is about $esp"
  rm -r "$root$esp/loader"
}

knows_both_partitions() {
  local it
  prepare_two
  is_the_esp /efi "/efi:$esp_type" "/boot:$xbootldr_type"
  is_the_esp /boot/efi "/boot/efi:$esp_type" "/boot:$xbootldr_type"
  is_the_esp /efi /efi: /boot:
  is_the_esp /boot/efi /boot/efi: /boot:
  # Of an EFI system partition at /boot the folder `efi` is its own, and one that is mounted at two places is one.
  printf '#!/bin/sh\ncase "$*" in *%%d*) echo 7 ;; *) echo msdos ;; esac\n' >"$root/tmp/front/stat"
  printf '#!/bin/sh\necho %s\n' $esp_type >"$root/tmp/front/lsblk"
  rmdir "$root/efi"
  ends 0 front / loader set-timeout 5
  same '' "$(cat "$room/err")"
  same 'timeout 5' "$(cat "$root/boot/loader/loader.conf")"
  # Of two EFI system partitions the first is taken, and one of any other kind isn't.
  fat_at "/boot:$esp_type" "/boot/efi:$esp_type"
  ends 0 front / loader set-timeout 6
  same 'timeout 6' "$(cat "$root/boot/loader/loader.conf")"
  fat_at "/boot:ebd0a0a2-b9e5-4433-87c0-68b6b72699c7" "/boot/efi:$esp_type"
  ends 0 front / loader set-timeout 7
  same 'timeout 7' "$(cat "$root/boot/efi/loader/loader.conf")"
  # The loader reads no loader.conf of XBOOTLDR.
  fat_at "/boot:$xbootldr_type"
  printf 'UUID=1234-ABC%d %s vfat umask=0077 0 1\n' 1 /boot 2 /efi >"$root/etc/fstab"
  for it in show 'set-timeout 8' 'set-default x'; do
    # shellcheck disable=SC2086  # its words
    ends 1 front / loader $it
    says 'only XBOOTLDR is mounted, at /boot. Type: mount /efi'
  done
  rm "$root/etc/fstab"
  ends 0 front /var/tmp/at install image a
  same 'installed /boot/EFI/Linux/a.efi' "$(cat "$room/out")"
  same 'timeout 6' "$(cat "$root/boot/loader/loader.conf")"
  clear_boot
}

# The commands go where the entries are. What could mean either partition is refused, and nothing changes.
goes_where_the_entry_is() {
  local before
  prepare_two
  ends 0 front /var/tmp/at install image new --tries=3
  same 'installed /boot/EFI/Linux/new+3.efi' "$(cat "$room/out")"
  says '/efi is the EFI system partition, /boot is XBOOTLDR: this is about /boot'
  ends 0 front /var/tmp/at type1 install plain --linux=kernel
  [[ -e $root/boot/loader/entries/plain.conf ]]
  ends 0 front / keep 3
  says 'this is about /boot'
  ends 0 front /var/tmp/at install image old --tries=3 --esp-path=/efi
  ends 0 front /var/tmp/at install image older --tries=3
  ends 0 front / bless good /EFI/Linux/old+3.efi
  same 'good /efi/EFI/Linux/old.efi' "$(cat "$room/out")"
  ends 0 front / bless status /EFI/Linux/new+3.efi
  same indeterminate "$(cat "$room/out")"
  before=$(everything)
  ends 1 front / keep 1 --force
  says '/efi and /boot both have entries that this may mean: name one of them by --esp-path='
  ends 1 front / boot
  same "$before" "$(everything)"
  ends 0 front / unlink old.efi
  same 'unlinked /efi/EFI/Linux/old.efi' "$(cat "$room/out")"
  ends 1 front / unlink old.efi
  same 'refusal 1: /boot/EFI/Linux/old.efi is not there' "$(sed -n 2p "$room/err")"
  ends 0 front /var/tmp/at install image new --esp-path=/efi && cp "$root/efi/EFI/Linux/new.efi" "$root/boot/EFI/Linux/new.efi"
  before=$(everything)
  ends 1 front / unlink new.efi
  same "$before" "$(everything)"
  ends 1 front / bless bad /EFI/Linux/new+3.efi
  same "$before" "$(everything)"
  touch "$root/efi/EFI/Linux/x.efi.tmp" "$root/boot/EFI/Linux/y.efi.tmp" "$root/boot/boot_tools/$(printf '%064d' 0)"
  ends 0 front / tidy
  same 'cleaned
cleaned' "$(cat "$room/out")"
  says 'this is about both'
  ends 0 front / type1 cleanup
  has "$room/out" '/boot/boot_tools/0000'
  [[ -z $(find "$root/efi" "$root/boot" -name '*.tmp') ]]
  clear_boot
}

# One list, and one answer to what boots: that of the loader, which has the entries of both in one menu.
lists_both_partitions() {
  prepare_two
  local it
  for it in 1 3; do
    printf 'ID=debian\nPRETTY_NAME="A title"\nVERSION_ID=%s\n' "$it" >"$root/var/tmp/at/release"
    front /var/tmp/at ukify build --stub=stub --linux=kernel --os-release=@release --output=image
    front /var/tmp/at install image "debian-$it" --esp-path=/efi
  done
  front /var/tmp/at type1 install debian-2 --linux=kernel --version=2 --sort-key=debian --title=two
  mkdir "$root/together" && cp -r "$root/efi/." "$root/boot/loader" "$root/together"
  in_root sh -c 'cd / && boot_tools bootctl list --esp-path=together' >menu
  in_root sh -c 'cd / && boot_tools bootctl list --json --esp-path=together' >json
  ends 0 front / list
  same "$(sed 's|/together/EFI|/efi/EFI|; s|/together/loader|/boot/loader|' menu)" "$(cat "$room/out")"
  says 'this is about both'
  ends 0 front / list --json
  same "$(sed 's|/together/EFI|/efi/EFI|g; s|/together/loader|/boot/loader|g' json)" "$(cat "$room/out")"
  rm -r "$root/together"
  ends 0 front / loader show
  has "$room/out" 'source /efi/EFI/Linux/debian-3.efi'
  ends 0 front / loader set-default 'debian-2[.+]*'
  same 'default debian-2[.+]*' "$(cat "$root/efi/loader/loader.conf")"
  says 'the next boot takes /boot/loader/entries/debian-2.conf'
  ends 0 front / loader show
  has "$room/out" 'source /boot/loader/entries/debian-2.conf'
  ends 0 front / list --short
  same '  debian-3.efi                      good                              A title, 3
* debian-2.conf                     good                              two, 2
  debian-1.efi                      good                              A title, 1' "$(cat "$room/out")"
  # What is passed over is told with its true path, and an entry of a name that both have isn't lost in silence.
  mkdir -p "$root/efi/loader/entries" && cp "$root/boot/loader/entries/debian-2.conf" "$root/efi/loader/entries/"
  echo x >"$root/boot/loader/entries/none.conf"
  ends 0 front / list
  has "$room/err" 'boot_tools: passed over /boot/loader/entries/none.conf: '
  says '/boot/loader/entries/debian-2.conf isn'\''t looked at, as the other partition has one of this name'
  rm "$root"/{boot,efi}/loader/entries/* "$root/efi/EFI/Linux/"*
  ends 1 front / list
  has "$room/err" 'refusal 13: no entries'
  clear_boot
}

# An EFI variable of the boot loader, as the system has it.
loader_variable() {
  mkdir -p "$root/sys/firmware/efi/efivars"
  { printf '\7\0\0\0' && printf '%s\0' "$2" | iconv -f UTF-8 -t UTF-16LE; } \
    >"$root/sys/firmware/efi/efivars/$1-4a67b082-0a4c-41cf-b6c7-440b29bb8c4f"
}

# The partition and its room, the booted entry and the next one, and what a stopped run has left. It finishes no rename.
tells_the_status() {
  needs iconv
  prepare_menu
  ends 0 front / status
  grep -qE '^ partition: /boot/efi, [^ ]+ free of [^ ]+$' "$room/out"
  same '    booted: not told by the boot loader
      next: /boot/efi/loader/entries/debian-6.1.0-47.conf
  recovery: nothing waits' "$(tail -n 3 "$room/out")"
  says '/boot/efi/loader/entries/debian-6.1.0-50.conf: its linux'
  loader_variable LoaderEntrySelected debian-1.conf
  loader_variable LoaderEntryOneShot debian-2.conf
  touch "$root/boot/efi/loader/entries/x.conf.tmp"
  front /var/tmp/at install image a --tries=3
  printf '/boot/efi/EFI/Linux/a+3.efi\0/boot/efi/EFI/Linux/a.efi\0' >"$root/boot_tools.intent"
  ends 0 front / status
  same '    booted: debian-1.conf
  recovery: a rename waits in /boot_tools.intent: /boot/efi/EFI/Linux/a+3.efi /boot/efi/EFI/Linux/a.efi 
  leftover: /boot/efi/loader/entries/x.conf.tmp, 0 bytes' "$(tail -n 3 "$room/out")"
  says 'DISK.md'
  [[ -e $root/boot_tools.intent ]]
  rm "$root/boot_tools.intent"
  ends 0 front / loader show
  says 'the EFI variable LoaderEntryOneShot comes before that, and says debian-2.conf'
  rm -r "$root/sys/firmware"
  mounted_at
  ends 1 front / status
  says 'no EFI system partition (FAT) is mounted'
}

# A line an entry, with a mark at the one that boots next.
lists_shortly() {
  prepare_menu
  front /var/tmp/at install image debian-1 --tries=3
  ends 0 front / list --short
  same '  debian-6.1.0-50.conf              hidden                            Debian, 6.1.0-50
* debian-6.1.0-47.conf              good                              Debian, 6.1.0-47
  debian-1+3.efi                    indeterminate  3 left, 0 done     A title' "$(cat "$room/out")"
  rm -r "$root/boot/efi/EFI" "$root/boot/efi/loader"
  ends 1 front / list --short
  same '' "$(cat "$room/out")"
  has "$room/err" 'refusal 13: no entries'
}

# What boots once a default is set is said: the program has chosen it, and a name without its counter isn't what systemd-boot compares.
says_what_boots() {
  prepare_menu
  front /var/tmp/at install image debian-1 --tries=3
  ends 0 front / loader set-default 'debian-1[.+]*'
  same 'default debian-1[.+]*' "$(cat "$room/out")"
  same 'espctl: the next boot takes /boot/efi/EFI/Linux/debian-1+3.efi' "$(grep 'next boot' "$room/err")"
  ! grep -q "NAME" "$room/err"
  for it in debian-1.efi debian-6.1.0-50.conf typo; do
    ends 0 front / loader set-default "$it"
    says "$it doesn't match its file's name"
    ends 0 front / loader show
    says "$it doesn't match its file's name"
    ! grep -q 'next boot' "$room/err"
  done
  ends 0 front / loader set-default typo
  says 'the next boot takes /boot/efi/loader/entries/debian-6.1.0-47.conf'
  ends 1 front / loader set-default '['
  says "give 'NAME[.+]*'"
}

# An image has a section that the values don't have: the front says so, as it builds it and as it measures it, and of no other image.
tells_of_newer_sections() {
  prepare_menu
  ends 0 front /var/tmp/at ukify build --stub=stub --linux=kernel --os-release=ID=x --output=plain
  same '' "$(cat "$room/err")"
  ends 0 front /var/tmp/at ukify build --stub=stub --linux=kernel --os-release=ID=x --section .profile:ID=a --section=.hwids:b --output=newer
  says 'the image has .profile, which'
  says 'the image has .hwids, which'
  ends 0 front /var/tmp/at measure image newer --bank=sha256
  says '/var/tmp/at/newer has .profile, which'
  says '/var/tmp/at/newer has .hwids, which'
  ends 0 front /var/tmp/at measure image plain --bank=sha256
  same '' "$(cat "$room/err")"
}

# What may help stands behind a refusal, and what is hardly meant so is told; the status stays.
gives_hints() {
  prepare_menu
  front /var/tmp/at ukify build --stub=stub --linux=kernel --output=untitled
  front /var/tmp/at install image debian-1 --tries=3
  ends 1 front /var/tmp/at install untitled x
  has "$room/err" 'refusal 11: '
  says '--os-release=@/etc/os-release'
  ends 1 front / unlink debian-1.efi
  says "espctl list --short"
  ends 1 front / unlink /boot/efi/EFI/Linux/debian-1+3.efi
  has "$room/err" 'refusal 12: '
  says "without its folder"
  ends 1 front /var/tmp/at install image 'a b'
  says 'letters, digits'
  ends 1 front / bless good /EFI/Linux/none+1.efi
  says '/EFI/Linux/NAME+2-1.efi'
  ends 0 front /var/tmp/at install image x.efi
  says 'x.efi gets a second one'
  [[ -e $root/boot/efi/EFI/Linux/x.efi.efi ]]
  ends 1 front /var/tmp list --esp-path=esp
  says '/var/tmp/esp isn'\''t there: is the partition mounted?'
  has "$room/err" 'refusal 13: '
  says 'EFI/Linux and loader/entries of /var/tmp/esp'
  ends 0 front /var/tmp/at ukify build --stub=stub --linux=kernel --os-release=release --output=x
  says '--os-release=release is taken as a text; that of the file is --os-release=@release'
  # The system's paths are absolute in the log too.
  mkdir -p "$root/boot/efi/loader/loader.conf"
  ends 3 front / loader set-timeout 5
  has "$room/err" 'boot_tools: create /boot/efi/loader/loader.conf.tmp: is a directory'
  rmdir "$root/boot/efi/loader/loader.conf"
  # A large file takes a while.
  truncate -s 40M "$root/var/tmp/at/initrd"
  ends 0 front /var/tmp/at type1 install large --linux=kernel --initrd=initrd
  says 'copying 41 MiB to /boot/efi, which may take a while'
}

# The command line of an image, and of an entry without one.
prints_a_command_line() {
  prepare_menu
  ends 0 front /var/tmp/at cmdline image
  same 'root=/dev/x quiet' "$(cat "$room/out")"
  truncate -s 1M "$root/var/tmp/at/initrd"
  front /var/tmp/at ukify build --stub=stub --linux=kernel --initrd=initrd --cmdline=large --output=large
  ends 0 front /var/tmp/at cmdline large
  cmp <(echo large) "$room/out"
  for it in debian12 backports; do
    take_root "$it"
    cp "$root$stub" "$room/debian12/var/tmp/at/stub"
    root=$room/debian12
    printf 'a "b"\n c' >"$root/var/tmp/at/words"
    front /var/tmp/at ukify build --stub=stub --linux=kernel --os-release=@release --cmdline=@words --section=.x:y --output=image
    ends 0 front /var/tmp/at cmdline image
    cmp <(printf 'a "b"\n c\n') "$room/out"
  done
  ends 1 front /var/tmp/at cmdline stub
  says 'stub has no command line'
  ends 1 front / cmdline image
  says 'give the path of its file'
  ends 1 front /var/tmp/at cmdline kernel
  has "$room/err" 'refusal 4: '
  front /var/tmp/at type1 install options --linux=kernel '--options=root=/dev/y ro'
  ends 0 front / cmdline /boot/efi/loader/entries/options.conf
  same 'root=/dev/y ro' "$(cat "$room/out")"
  printf 'title GRUB\nefi /EFI/debian/grubx64.efi\n' >"$root/boot/efi/loader/entries/grub.conf"
  ends 1 front / cmdline /boot/efi/loader/entries/grub.conf
  says 'grub.conf has no command line'
}

# Each command is in the list, and each has a line of its own.
helps() {
  prepare_front
  ends 0 front / help
  same "$(grep -c "^  '.*|.*|.*|.*'$" "$top/share/bin/espctl")" "$(wc -l <"$room/out")"
  ends 0 front / help keep
  has "$room/out" 'keep NUMBER '
  has "$room/out" '--per-key --dry-run --esp-path --force'
  cp "$room/out" here
  ends 0 front / keep --help
  cmp here "$room/out"
  ends 0 front / list --help
  has "$room/out" '--short'
  ends 2 front / help nothing
}

# --- tools/package and make

# Without the kit nothing is packed, as the notices would be false. A program that names no commit isn't packed in silence.
packs_nothing_without_the_kit() {
  needs git make
  fresh_clone
  mkdir bin && printf '#!/bin/sh\nexit 127\n' >bin/rt && chmod +x bin/rt
  for it in --copyright --deb --rpm --arch; do
    ends 1 env PATH="$PWD/bin:$PATH" clone/tools/package "$it" "$program"
    same 'tools/package: there is no rt: the notices stand in the kit' "$(cat "$room/err")"
    same '' "$(cat "$room/out")"
  done
}

names_the_commit() {
  needs git make dpkg-deb dpkg-shlibdeps rt
  local told=0 form
  fresh_clone
  printf '#!/bin/sh\necho "boot_tools 0.1 (commit %s), started in /" >&2\nexit 2\n' unknown >nameless && chmod +x nameless
  sed "s/(commit [^)]*)/(commit $(git -C clone rev-parse HEAD))/" nameless >named && chmod +x named
  for form in --deb --rpm --arch; do
    for it in nameless named; do # neither is a program that can be packed; which words come before that is looked at
      clone/tools/package "$form" "$PWD/$it" >/dev/null 2>"$room/err" || true
      ! grep -q "$it doesn't name its commit" "$room/err" || told+=" $form $it"
    done
  done
  same '0 --deb nameless --rpm nameless --arch nameless' "$told"
}

suggests_what_the_pages_name() {
  [[ -e $room/package.deb ]] || skip "no package was made"
  local it
  for it in openssl dosfstools psmisc; do
    [[ ", $(dpkg-deb -f "$room/package.deb" Suggests)," == *", $it,"* ]]
    grep -qx "Suggests:  *$it" "$top/share/package/boot_tools.spec"
    grep -q "'$it: " "$top/share/package/PKGBUILD"
  done
}

# A second time there is nothing to take away, and what is said stays.
uninstalls_twice() {
  needs make
  local it
  for it in PREFIX=/usr/local PREFIX=/usr; do
    install_to "$PWD/tree" "$it"
    mkdir -p tree/etc/kernel && echo uki_generator=boot_tools >tree/etc/kernel/install.conf
    ends 0 make -C "$top" -s uninstall DESTDIR="$PWD/tree" "$it"
    cp "$room/out" first
    ends 0 make -C "$top" -s uninstall DESTDIR="$PWD/tree" "$it"
    cmp first "$room/out"
    has first 'still has uki_generator=boot_tools'
    same '' "$(cat "$room/err")"
    rm -r tree
  done
}

# What `make try` does is said before it is done.
says_what_it_tries() {
  needs make
  fresh_clone
  mkdir bin && printf '#!/bin/sh\ncat said >&2\n' >bin/rt && chmod +x bin/rt
  # shellcheck disable=SC2016  # the stand-in's own
  printf '#!/bin/sh\ncp "%s" "%s"\n' "$PWD/so-far" "$PWD/before" >bin/rt
  PATH="$PWD/bin:$PATH" make -C clone -s try >so-far
  has before 'make try: builds the program unproved, in some two minutes'
}

# --- a real boot

# A program of this machine with its libraries, below the folder `guest`.
take_along() {
  local file
  for file in "$@" $(ldd "$@" 2>/dev/null | grep -o '/[^ ]*\.so[^ ]*' | sort -u); do
    mkdir -p "guest$(dirname "$file")"
    cp -L "$file" "guest$file"
  done
}

# The guest's first program: it tells what the loader has started and what the front says of that, and then changes the default.
guests_init() {
  cat <<'END'
#!/bin/busybox sh
/bin/busybox mkdir -p /proc /sys /dev /efi /boot /tmp /bin /usr/bin
/bin/busybox mount -t proc proc /proc
/bin/busybox mount -t sysfs sysfs /sys
/bin/busybox mount -t devtmpfs dev /dev
export PATH=/usr/bin:/bin
for round in 1 2 3 4; do # what is still missing a module before it goes in later
  for it in fat vfat nls_cp437 nls_ascii nls_iso8859-1 virtio_ring virtio virtio_pci_modern_dev virtio_pci_legacy_dev virtio_pci \
    virtio_blk efivarfs; do
    for file in $(busybox find /modules -name "$it.ko"); do busybox insmod "$file" 2>/dev/null; done
  done
done
busybox mount -t efivarfs efivarfs /sys/firmware/efi/efivars
while [ ! -b /dev/vda2 ]; do busybox sleep 1; done
busybox mount -t vfat -o iocharset=ascii /dev/vda1 /efi
busybox mount -t vfat -o iocharset=ascii /dev/vda2 /boot
cd /tmp
echo "guest: booted $(espctl status | sed -n 's/^ *booted: //p')"
espctl loader show 2>err | sed -n 's/^source /guest: shown /p'
sed 's/^/guest: /' err
espctl list --short 2>/dev/null | sed 's/^/guest: /; s/ *$//'
if [ -e /efi/again ]; then
  espctl loader set-default broken.conf 2>&1 | sed 's/^/guest: /'
else
  espctl keep 1 2>&1 | sed 's/^/guest: /'
  espctl loader set-default 'alpha[.+]*' 2>&1 | sed 's/^/guest: /'
  busybox touch /efi/again
fi
busybox umount /efi
busybox umount /boot
busybox poweroff -f
END
}

make_guest() {
  local it modules
  modules=$(echo "$roots"/kernel/lib/modules/*)
  mkdir -p guest/bin guest/modules guest/usr/bin
  cp "$(command -v busybox)" guest/bin/busybox
  for it in bash awk cat cut df dirname find findmnt grep head ln lsblk mkdir mktemp od paste readlink realpath rm sed sleep sort stat \
    tail tr wc; do
    take_along "$(command -v "$it")"
    [[ -e guest/usr/bin/$it ]] || cp -L "$(command -v "$it")" guest/usr/bin/
  done
  take_along "$program"
  cp "$program" guest/usr/bin/boot_tools
  cp "$top/share/bin/espctl" guest/usr/bin/espctl
  ln -sf /usr/bin/bash guest/bin/bash
  for it in fs/fat fs/nls drivers/virtio drivers/block/virtio_blk.ko fs/efivarfs; do cp -r "$modules/kernel/$it" guest/modules/; done
  guests_init >guest/init && chmod 755 guest/init
  (cd guest && find . | cpio -o -H newc --quiet) | gzip -1 >initrd
}

# A disk with an EFI system partition, which has an image and the boot loader, and with XBOOTLDR, which has the entry that is first in the menu, one
# whose kernel isn't there, and one whose initrd isn't.
make_disk() { # make_disk LOADER
  local it
  printf 'ID=guest\nPRETTY_NAME="Guest"\nVERSION_ID=1\n' >release
  cp "$roots"/kernel/boot/vmlinuz-* kernel
  cp "$roots/backports$stub" stub
  "$program" ukify build --stub=stub --linux=kernel --initrd=initrd '--cmdline=console=ttyS0 panic=1' --os-release=@release --output=new.efi
  mkdir -p second/loader/entries
  for it in omega:3 hidden:9 broken:0; do
    printf '%s\n' "title ${it%:*}" "version ${it#*:}" 'sort-key guest' 'linux /kernel' 'initrd /initrd' 'options console=ttyS0 panic=1' \
      >"second/loader/entries/${it%:*}.conf"
  done
  sed -i 's|^linux .*|linux /none|' second/loader/entries/hidden.conf
  sed -i 's|^initrd .*|initrd /none|' second/loader/entries/broken.conf
  truncate -s 258M disk
  printf 'size=128MiB, type=uefi\nsize=128MiB, type=bc13c2ff-59e6-4262-a352-b275fd6f7172\n' | sfdisk -q --label gpt disk
  mformat -i disk@@1M -F -T $((128 * 2048)) :: && mformat -i disk@@129M -F -T $((128 * 2048)) ::
  mmd -i disk@@1M ::EFI ::EFI/BOOT ::EFI/Linux ::loader
  mcopy -i disk@@1M "$1" ::EFI/BOOT/BOOTX64.EFI
  mcopy -i disk@@1M new.efi ::EFI/Linux/alpha.efi
  echo 'timeout 0' | mcopy -i disk@@1M - ::loader/loader.conf
  mcopy -i disk@@129M -s second/loader kernel initrd ::
}

# Starts the guest, and ends as soon as it has, or as its console has the text.
boot_guest() {
  local guest left
  rm -f serial
  qemu-system-x86_64 -machine q35 -accel "${ACCEL:-tcg}" -cpu max -m 512 -nographic -monitor none -serial file:serial -no-reboot -nic none \
    -drive if=pflash,format=raw,readonly=on,file=/usr/share/OVMF/OVMF_CODE_4M.fd -drive if=pflash,format=raw,file=variables \
    -drive if=virtio,format=raw,file=disk </dev/null &
  guest=$!
  for ((left = ${PATIENCE:-600}; left > 0; left--)); do
    kill -0 "$guest" 2>/dev/null || break
    ! { [[ $1 ]] && grep -a -q "$1" serial 2>/dev/null; } || break
    sleep 1
  done
  kill "$guest" 2>/dev/null || true
  wait "$guest" || true
  ((left > 0)) || { tail -n 20 serial && return 1; }
  grep -a -o 'guest: .*' serial | tr -d '\r' >told || true
}

# What the front says of two partitions is what boots: the loader hides one entry, and shows another that it can't start.
boots_what_it_says() {
  needs qemu-system-x86_64 busybox cpio mcopy sfdisk lsblk
  [[ -e /usr/share/OVMF/OVMF_CODE_4M.fd ]] || skip "no firmware here"
  take_root backports
  take_kernel >/dev/null 2>&1 || skip "no kernel can be had"
  local loader
  loader=$(compgen -G "$roots/$1/usr/lib/systemd/boot/efi/systemd-bootx64.efi*" | head -n 1)
  [[ $loader && -e $roots/backports$stub ]] || skip "no boot loader of $1 there"
  cp /usr/share/OVMF/OVMF_VARS_4M.fd variables
  make_guest
  make_disk "$loader" >/dev/null
  boot_guest ''
  cat told
  has told 'guest: booted omega.conf'
  has told 'guest: shown /boot/loader/entries/omega.conf'
  has told "guest: espctl: /boot/loader/entries/hidden.conf: its linux /none isn't there: the loader hides it"
  has told "guest: espctl: /boot/loader/entries/broken.conf: its initrd /none isn't there: the loader lists it and fails to start it"
  has told 'guest: * omega.conf '
  has told 'guest: espctl: /efi and /boot both have entries that this may mean'
  has told 'guest: espctl: the next boot takes /efi/EFI/Linux/alpha.efi'
  boot_guest ''
  cat told
  has told 'guest: booted alpha.efi'
  has told 'guest: shown /efi/EFI/Linux/alpha.efi'
  has told 'guest: default broken.conf'
  has told 'guest: espctl: the next boot takes /boot/loader/entries/broken.conf'
  boot_guest 'Error preparing initrd'
  grep -a -q 'Error preparing initrd' serial
}
