# What people type from README.md and docs/TASKS.md, as it stands there, by the user whom the block names; and what boots then, in a guest
# with firmware. Sourced by tools/system-tests.
# shellcheck shell=bash
# shellcheck disable=SC2154  # top, program, roots and room are that script's

# --- the pages themselves

# The headings of a page, as the anchors that a link to them has.
anchors() {
  # shellcheck disable=SC2016  # these are fences of a block
  sed -n '/^```/,/^```/d; s/^##* //p' "$1" | tr '[:upper:]' '[:lower:]' | sed "s/[^a-z0-9 _-]//g; s/ /-/g"
}

# The links of a page to other pages.
links() {
  # shellcheck disable=SC2016  # these are backquotes of the page
  sed 's/`[^`]*`//g' "$1" | grep -o '](\([^)]*\))' | sed 's/^](//; s/)$//' | grep -v '^[a-z]*:'
}

# Each link of these pages leads to a file that is there, and to one of its headings.
links_lead_somewhere() {
  local page link file count=0
  cd "$top" || return
  for page in README.md CONTRIBUTING.md CHANGELOG.md docs/*.md; do
    while read -r link; do
      file=$page
      [[ $link == '#'* ]] || file=$(dirname "$page")/${link%%#*}
      [[ -e $file ]] || { echo "$page: no file $link"; return 1; }
      [[ $link != *'#'* ]] || anchors "$file" | grep -qx -- "${link#*#}" || { echo "$page: no heading $link"; return 1; }
      ((++count))
    done < <(links "$page")
  done
  echo "counted: $count links"
  ((count > 60))
}

# In an installation the pages stand in one folder, and lead to each other. Those that aren't installed have their place in the sources.
installed_links_lead_somewhere() {
  local it link
  needs make
  install_to "$PWD/tree" PREFIX=/usr
  cd tree/usr/share/doc/boot-tools || return
  for it in *.md; do
    for link in $(links "$it" | sed 's/#.*//' | sort -u); do
      [[ -e $link || -e $top/docs/$link || -e $top/$link && $link != docs/* ]] || { echo "$it: no file $link"; return 1; }
    done
  done
}

# Each heading of docs/TASKS.md is in the lists at its head, or README leads to it.
each_task_is_listed() {
  local it lost=()
  sed '/^## /Q' "$top/docs/TASKS.md" >lists
  { links "$top/README.md" && links lists; } >there
  for it in $(sed 1d "$top/docs/TASKS.md" | anchors /dev/stdin); do
    grep -qxF -e "docs/TASKS.md#$it" -e "#$it" there || lost+=("$it")
  done
  same '' "${lost[*]}"
}

# The n-th block of this kind of a page, from 1 on.
block() { # block PAGE KIND N
  awk -v kind='```'"$2" -v n="$3" '$0 == kind { on = ++count == n; next } /^```$/ { on = 0 } on' "$top/$1"
}

# The commands of a console block with this prompt, and what is printed behind them.
commands() { awk -v prompt="$1 " 'index($0, prompt) == 1 { print substr($0, 3); more = /\\$/; next } more { print; more = /\\$/ }'; }
replies() { awk -v prompt="$1 " 'index($0, prompt) == 1 { more = /\\$/; next } more { more = /\\$/; next } { print }'; }

# --- systems and guests

# A system of its own in $root, by that name: what is written there lies over the system that it begins as.
root_of() { # root_of NAME SYSTEM
  needs chroot
  [[ -e $roots/$2/usr/bin/kernel-install ]] || make_root "$2" >"$room/made" 2>&1 || skip "no Debian system can be made: $(tail -n 1 "$room/made")"
  root=$room/$1
  mkdir -p "$root" "$root.upper" "$root.work"
  mount -t overlay overlay -o "lowerdir=$roots/$2,upperdir=$root.upper,workdir=$root.work" "$root" 2>/dev/null || cp -a "$roots/$2/." "$root"
  { mount -t proc proc "$root/proc" && mount -t tmpfs tmpfs "$root/dev"; } || skip "nothing can be mounted"
  mknod -m 666 "$root/dev/null" c 1 3 && mknod -m 666 "$root/dev/urandom" c 1 9
  ln -s /proc/self/fd "$root/dev/fd"
}

# A kernel for guests, of tools/lab/chosen.c: it prints which entry the boot loader has chosen, and turns the machine off.
make_kernel() {
  gcc -Os -ffreestanding -fno-stack-protector -fshort-wchar -mno-red-zone -fpie -fno-asynchronous-unwind-tables -fno-ident \
    -Wall -Wextra -c "$top/tools/lab/chosen.c" -o "$1.o" &&
    ld -m i386pep --subsystem 10 -e start --major-image-version 1 -o "$1" "$1.o"
}

# Adds a variable, which is a file as efivarfs has it, to the firmware's store: the authenticated variables of EDK2.
put_variable() { # put_variable STORE FILE
  python3 - "$@" <<'END'
import pathlib, struct, sys, uuid
store, file = map(pathlib.Path, sys.argv[1:])
name, _, vendor = file.name.partition("-")
name, content, bytes_of = f"{name}\0".encode("utf-16le"), file.read_bytes(), bytearray(store.read_bytes())
at = 0x64
while bytes_of[at:at + 2] == b"\xaa\x55":
    at = at + 60 + sum(struct.unpack_from("<2I", bytes_of, at + 36)) + 3 & ~3
head = struct.pack("<HBx4sQ16xI2I16s", 0x55AA, 0x3F, content[:4], 0, 0, len(name), len(content) - 4, uuid.UUID(vendor).bytes_le)
bytes_of[at:at + len(head + name + content) - 4] = head + name + content[4:]
store.write_bytes(bytes_of)
END
}

# Starts a guest with firmware from a copy of a folder that stands for the partition, and says which entry its boot loader chose. The
# counter is left out: the loader's id has it in some versions. The firmware's variables are those of a file `variables`.
chosen() {
  local partition=disk@@1M
  rm -f disk serial && truncate -s 128M disk
  echo 'start=1MiB, type=uefi' | sfdisk -q --label gpt disk
  mformat -i "$partition" -F -T $(((128 - 2) * 2048)) ::
  mcopy -i "$partition" -s "$1"/* ::
  [[ -e variables ]] || cp /usr/share/OVMF/OVMF_VARS_4M.fd variables
  timeout "${PATIENCE:-600}" qemu-system-x86_64 -machine q35 -accel "${ACCEL:-tcg}" -cpu max -m 512 -nographic -monitor none -serial file:serial \
    -no-reboot -nic none -drive if=pflash,format=raw,readonly=on,file=/usr/share/OVMF/OVMF_CODE_4M.fd \
    -drive if=pflash,format=raw,file=variables -drive if=virtio,format=raw,file=disk </dev/null || return
  grep -a -o 'guest: [^[:cntrl:]]*' serial | sed 's/^guest: //; s/+[0-9]*\(-[0-9]*\)*\././'
}

# --- README.md

# A copy of the backports with the package, and an ordinary user with a home.
prepare_user() {
  [[ -e $room/package.deb ]] || skip "no package was made"
  root=$room/user
  [[ ! -e $root ]] || return 0
  root_of user backports
  mkdir -p "$root/root/here" && cp "$room/package.deb" "$root/root/here/boot-tools_1_amd64.deb"
  install -d -o 64999 -g 64999 "$root/home/user"
}

# What the user types in a folder.
by_user() { # by_user FOLDER FILE
  # shellcheck disable=SC2016  # the shell in the system sets these
  in_root setpriv --reuid=64999 --regid=64999 --clear-groups env HOME=/home/user bash -e -c 'cd "$0" && . "$1"' "$1" "$2"
}

# The first block of README installs the package. Typed by root where the package stands.
readme_installs() {
  prepare_user
  block README.md sh 1 >"$root/root/block"
  in_root apt-get -qq update || skip "nothing can be fetched"
  ends 0 in_root bash -c 'cd /root/here && exec bash -ex ../block' </dev/null
  ends 0 in_root boot_tools demo 1 1
}

# The examples of README with the prompt `$`, typed one after the other by an ordinary user in their home, print what stands there.
readme_is_typed_by_a_user() {
  prepare_user
  local kernel=6.1.0-57-amd64 it
  [[ -x $root/usr/bin/boot_tools ]] || in_root dpkg -i /root/here/boot-tools_1_amd64.deb
  if [[ ! -e $root/boot/vmlinuz-$kernel ]]; then
    (in_root apt-get -qq update && in_root sh -c "cd /tmp && apt-get -qq download linux-image-$kernel") || skip "no linux-image-$kernel"
    dpkg-deb --fsys-tarfile "$root"/tmp/linux-image-$kernel*.deb | tar -xC "$root" "./boot/vmlinuz-$kernel"
  fi
  { block README.md console 1 && block README.md console 3; } >both
  commands '$' <both >"$root/tmp/typed"
  ends 1 by_user /home/user /tmp/typed
  replies '$' <both | cmp - "$room/out"
  same '' "$(cat "$room/err")"
  same /home/user/try/esp/EFI/Linux "$(in_root find / -xdev -uid 64999 -type d -path '*EFI/Linux')"
  echo "counted: $(commands '$' <both | grep -c '^[a-z]') lines"
}

# In a clone that has the built program, typed by its owner at the top.
readme_is_typed_in_a_clone() {
  needs git setpriv
  fresh_clone
  install -D "$program" clone/crates/boot_tools/out/boot_tools
  chown -R 64999 clone && chmod 755 "$room" "$room/at"
  block README.md console 2 >example
  commands '$' <example >typed
  ends 0 env -C clone setpriv --reuid=64999 --regid=64999 --clear-groups bash -e ../typed
  replies '$' <example | cmp - "$room/out"
}

# --- docs/TASKS.md

# The blocks of the page that end in a boot, by their heading and their number under it, and which entry the boot loader takes then.
boots_behind=(
  'an-image-of-my-own-1 debian-6.1.0-57-own.efi'
  'a-kernel-without-an-image-1 debian-6.1.0-57-plain.conf'
  'the-default-entry-1 debian-6.1.0-56-amd64.efi'
  'the-default-entry-2 debian-6.1.0-57-plain.conf'
  'mark-a-boot-bad-1 debian-6.1.0-57-amd64.efi'
  'pin-an-entry-1 pinned.conf'
  'from-grub-and-back-1 grub.conf'
  'another-system-beside-this-one-1 debian-6.1.0-57-plain.conf'
  'remove-the-program-1 debian-6.1.0-57-amd64.conf'
  'remove-the-program-2 debian-6.1.0-57-amd64.conf'
  'a-newer-kernel debian-6.1.0-58-amd64.conf'
)

# A bare system that GRUB has booted, with two kernels, and with the package in the folder in which is typed. A `stat` of the test's says
# that /boot/efi is FAT, and passes all else on.
prepare_tasks() {
  local release
  root_of "tasks-$1" "$1"
  mkdir -p "$root/boot/efi" "$root/tmp/front" "$root/tmp/typed"
  mount -t tmpfs tmpfs "$root/boot/efi" && mkdir -p "$root/boot/efi/EFI/debian"
  mounted_at /boot/efi
  # shellcheck disable=SC2016  # the script's own words
  sed -i '2i [ "$1" = -f ] || exec /usr/bin/stat "$@"' "$root/tmp/front/stat"
  cp "$room/package.deb" "$root/tmp/typed/boot-tools_1_amd64.deb"
  echo 'BOOT_IMAGE=/boot/vmlinuz-6.1.0-57-amd64 root=/dev/vda2 ro quiet' >"$root/tmp/cmdline"
  mount --bind "$root/tmp/cmdline" "$root/proc/cmdline"
  make_kernel kernel
  cp kernel "$root/boot/efi/EFI/debian/grubx64.efi"
  for release in 6.1.0-56-amd64 6.1.0-57-amd64; do put_kernel "$release"; done
}

put_kernel() {
  mkdir -p "$root/lib/modules/$1"
  cp kernel "$root/boot/vmlinuz-$1"
  head -c 50000 /dev/urandom >"$root/boot/initrd.img-$1"
}

# A file for each block of `sh`: its number, the anchor of its heading, and its number under that.
cut_into_blocks() {
  mkdir blocks
  awk '/^```sh$/ { name = sprintf("blocks/%02d.%s-%d", ++count, heading, ++under); next } /^```$/ { name = "" } name { print > name; next }
    /^##+ / { heading = tolower($0); gsub(/^#+ |[^a-z0-9 _-]/, "", heading); sub(/^ +/, "", heading); gsub(/ /, "-", heading); under = 0 }' \
    "$top/docs/TASKS.md"
}

type_block() {
  cp "$1" "$root/tmp/typed/block"
  # shellcheck disable=SC2016  # the shell in the system sets it
  in_root sh -c 'cd /tmp/typed && export PATH=/tmp/front:$PATH SYSTEMD_RELAX_ESP_CHECKS=1 DEBIAN_FRONTEND=noninteractive && exec bash -ex block' \
    </dev/null
}

# The line that removes old entries removes nothing if the running kernel's would go, or if the dry run fails. An empty loader.conf keeps the copy
# of the settings beside it.
removes_with_care() {
  local it wanted said status
  cut_into_blocks
  mkdir -p bin efi/loader
  # shellcheck disable=SC2016  # the stand-in's own words
  printf '#!/bin/sh\n[ "$*" = "keep 2 --per-key --dry-run" ] || exec echo removed\ncat would\nexit "$(cat status)"\n' >bin/espctl
  chmod +x bin/espctl
  while IFS='|' read -r said status wanted; do
    echo "$said" >would && echo "$status" >status
    PATH=$PWD/bin:$PATH bash blocks/*.remove-old-ones-but-not-the-running-one-1 >came
    same "$wanted" "$(tail -n 1 came)"
  done <<END
|3|
would unlink /efi/EFI/Linux/debian-$(uname -r).efi|0|would unlink /efi/EFI/Linux/debian-$(uname -r).efi
would unlink /efi/EFI/Linux/debian-0.efi|0|removed
END
  for it in '' timeout; do
    printf '%s' "$it" >efi/loader/loader.conf && touch efi/loader/loader.conf.tmp
    sed "s|/boot/efi|$PWD/efi|g" blocks/*.the-partition-is-full-1 >block
    PATH=$PWD/bin:$PATH bash -e block
    same "$([[ $it ]] || echo loader.conf.tmp)" "$(cd efi/loader && find . -name '*.tmp' -printf '%P')"
  done
}

# As if each entry with tries had been booted and blessed.
bless_all() {
  local it
  for it in "$root"/boot/efi/EFI/Linux/*+[1-9]*.efi "$root"/boot/efi/loader/entries/*+[1-9]*.conf; do
    [[ ! -e $it ]] || mv "$it" "${it%+*}.${it##*.}"
  done
}

# The partition as it is behind a block that ends in a boot. What isn't first in the menu is chosen by the test: a bad entry comes behind
# other images, and GRUB and a pinned entry behind all of them.
keep_partition() { # keep_partition NAME SYSTEM
  local it=$room/boots/$2.$1
  [[ " ${boots_behind[*]}" == *" $1 "* ]] || return 0
  mkdir -p "$room/boots" && cp -r "$root/boot/efi" "$it"
  case $1 in
    mark-a-boot-bad-1) echo 'default debian-*.efi' >"$it/loader/loader.conf" ;;
    pin-an-entry-1) echo 'default pinned*' >"$it/loader/loader.conf" ;;
    from-grub-and-back-1) echo 'default grub*' >"$it/loader/loader.conf" ;;
  esac
}

# The blocks of docs/TASKS.md run as they stand, one after the other, and what the page says of them comes.
tasks_are_typed() {
  local it name count=0
  needs gcc ld
  [[ -e $room/package.deb ]] || skip "no package was made"
  prepare_tasks "$1"
  in_root apt-get -qq update || skip "nothing can be fetched"
  cut_into_blocks
  for it in blocks/*; do
    name=${it#*.}
    [[ $name != pin-an-entry-1 && $name != remove-the-program-2 ]] || bless_all
    type_block "$it"
    keep_partition "$name" "$1"
    ((++count))
  done
  same '' "$(find "$root/usr" "$root/etc" -name '*boot_tools*')"
  same 'debian-6.1.0-56-amd64.conf debian-6.1.0-57-amd64.conf' "$(cd "$root/boot/efi/loader/entries" && echo debian-*)"
  same '' "$(ls "$root/boot/efi/EFI/Linux")"
  put_kernel 6.1.0-58-amd64
  echo 'kernel-install add 6.1.0-58-amd64 /boot/vmlinuz-6.1.0-58-amd64' >newer && type_block newer
  keep_partition a-newer-kernel "$1"
  echo "counted: $count blocks"
  ((count > 24))
}

needs_a_guest() {
  needs qemu-system-x86_64 sfdisk mformat mcopy
  [[ -e /usr/share/OVMF/OVMF_CODE_4M.fd ]] || skip "no ovmf here"
  [[ -e $room/boots/$1 ]] || skip "the lines weren't typed"
}

# What the boot loader takes behind a block, in a guest with firmware: the entry that the page says.
boots_as_the_page_says() { # boots_as_the_page_says SYSTEM 'BLOCK ENTRY'
  needs_a_guest "$1.${2% *}"
  same "${2#* }" "$(chosen "$room/boots/$1.${2% *}")"
}

# The line of the page that boots into another entry once, with the bootctl and the boot loader of a system: what bootctl writes as a variable,
# into a folder that stands for efivarfs, is put into a guest's firmware, which is started twice. The second time it is the default again.
boots_once() { # boots_once SYSTEM
  local variables name=LoaderInfo-$guid it typed=debian12
  needs iconv python3
  [[ $1 != debian13 ]] || typed=debian13
  needs_a_guest "$typed.the-default-entry-2"
  take_root "$1"
  cp -r "$room/boots/$typed.the-default-entry-2" partition
  for it in partition/EFI/systemd/systemd-bootx64.efi partition/EFI/BOOT/BOOTX64.EFI; do
    cp "$(compgen -G "$root/usr/lib/systemd/boot/efi/systemd-bootx64.efi*" | head -n 1)" "$it"
  done
  [[ -e $root/sys/firmware ]] || mount -t tmpfs tmpfs "$root/sys"
  variables=$root/sys/firmware/efi/efivars
  mkdir -p "$variables"
  { printf '\6\0\0\0' && printf systemd-boot | iconv -t UTF-16LE && printf '\0\0'; } >"$variables/$name"
  awk '/^### Once into another/ { on = 1 } on && /^# bootctl / { print substr($0, 3); exit }' "$top/docs/TASKS.md" >line
  ends 0 in_root bash -ex -c "$(cat line)"
  cp /usr/share/OVMF/OVMF_VARS_4M.fd variables
  put_variable variables "$variables/LoaderEntryOneShot-$guid"
  same debian-6.1.0-56-amd64.efi "$(chosen partition)"
  same debian-6.1.0-57-plain.conf "$(chosen partition)"
}
