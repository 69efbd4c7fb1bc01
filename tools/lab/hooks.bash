# Tests of the hooks of kernel-install, of what they sign, and of the page's lines on a bare system: tools/system-tests sources it, and has its
# helpers and the `check` lines.
# shellcheck shell=bash disable=SC2154,SC2016  # what tools/system-tests sets, and what shells in the system expand

# Adds a version without the stand-in for `stat`, so on the file system that is there.
add_really() { in_root kernel-install add "$1" /boot/vmlinuz /boot/initrd; }

section_of() { # section_of FILE NAME: the bytes of the section of an image
  needs objcopy
  objcopy -O binary --only-section="$2" "$1" "$PWD/section" && cat "$PWD/section"
}

# Another generator's image is its own business, and so is a kernel that is an image.
acts_if_it_is_asked() {
  local it
  prepare "$1"
  add && cp "$root/efi/EFI/Linux/$entry.efi" "$root/boot/given.efi" && kernel_install remove "$version"
  stage 50 uki.efi staged
  for it in ukify other; do
    sed -i "s/^uki_generator=.*/uki_generator=$it/" "$root/etc/kernel/install.conf"
    ends 0 add
    same '' "$(grep boot_tools "$room/err")"
    ends 0 kernel_install add "$version" /boot/given.efi
    same '' "$(entries)"
  done
  cp "$root/boot/given.efi" "$root/efi/EFI/Linux/$entry.efi"
  ends 0 kernel_install remove "$version"
  same '' "$(entries)"
}

# A boot root that is no FAT partition is told of. (The rows on a real one say that it isn't told of there.)
tells_of_a_boot_root() {
  prepare "$1"
  ends 0 add_really "$version"
  has "$room/err" '90-boot_tools.install: /efi is no FAT partition, where a boot loader looks: is the EFI system partition mounted?'
  same "$entry.efi" "$(entries)"
}

# Another `remove` takes the file away after the hook has seen it; and four at once.
removes_beside_another() {
  local it
  prepare "$1"
  add
  printf '#!/bin/sh\nrm -f /efi/EFI/Linux/%s.efi\nexec /usr/bin/boot_tools "$@"\n' "$entry" >"$root/usr/local/bin/boot_tools"
  chmod +x "$root/usr/local/bin/boot_tools"
  ends 0 kernel_install remove "$version"
  same '' "$(cat "$room/err")"
  rm "$root/usr/local/bin/boot_tools"
  add
  for it in 1 2 3 4; do
    { kernel_install remove "$version" && touch "well.$it"; } >>told 2>&1 &
  done
  wait
  cat told
  same 'well.1 well.2 well.3 well.4' "$(echo well.*)"
  same '' "$(entries)"
  others_stay
}

# The last entry without a counter goes: that is told, and not if another one is left.
tells_that_none_is_blessed() {
  prepare "$1"
  rm "$root"/efi/EFI/Linux/*
  add && echo 3 >"$root/etc/kernel/tries"
  ends 0 add
  has "$room/err" "90-boot_tools.install: no entry without a counter is left until $entry+3.efi is blessed"
  kernel_install add other /boot/vmlinuz && mv "$root/efi/EFI/Linux/token-other+3.efi" "$root/efi/EFI/Linux/token-other.efi"
  mv "$root/efi/EFI/Linux/$entry+3.efi" "$root/efi/EFI/Linux/$entry.efi"
  ends 0 add
  same '' "$(grep 'without a counter' "$room/err")"
}

# The name of systemd 258 and later counts, its `--entry-type=type1 remove` is no business of ours, and extras go with the image.
goes_by_the_name() {
  local name=KERNEL_INSTALL_ENTRY_NAME=named extras
  prepare "$1"
  extras=$root/efi/EFI/Linux/named.efi.extra.d
  cat >"$root/usr/lib/kernel/install.d/50-test.install" <<'END'
#!/bin/sh
[ "$1" = remove ] || { mkdir "$KERNEL_INSTALL_STAGING_AREA/uki.efi.extra.d" && echo x >"$KERNEL_INSTALL_STAGING_AREA/uki.efi.extra.d/a"; }
END
  chmod +x "$root/usr/lib/kernel/install.d/50-test.install"
  ends 0 kernel_install "$name" add "$version" /boot/vmlinuz /boot/initrd
  same named.efi "$(entries)"
  has "$room/err" "uki.efi.extra.d isn't copied"
  mkdir "$extras" && echo x >"$extras/a.addon.efi"
  ends 0 kernel_install "$name" KERNEL_INSTALL_BOOT_ENTRY_TYPE=type1 remove "$version"
  [[ -e $root/efi/EFI/Linux/named.efi && -e $extras/a.addon.efi ]]
  ends 0 kernel_install "$name" remove "$version"
  same '' "$(entries)"
  [[ ! -e $extras ]]
}

# Further words for the build, a line each, with comments between them.
takes_further_words() {
  prepare "$1"
  echo splash >"$root/etc/a picture"
  printf '# words\n\n  --splash=/etc/a picture  \n  # more\n--section=.note:a text\n' >"$root/etc/kernel/boot_tools.options"
  ends 0 add
  in_root sh -c 'cd / && boot_tools ukify build "$@"' sh "--stub=$stub" --linux=boot/vmlinuz --initrd=boot/initrd --os-release=@etc/os-release \
    '--cmdline=root=/dev/vda2 ro quiet' "--uname=$version" '--splash=etc/a picture' '--section=.note:a text' --output=tmp/wanted.efi
  cmp "$root/efi/EFI/Linux/$entry.efi" "$root/tmp/wanted.efi"
}

# A word that is no option of the build fails with the program's usage line, and the output is the hook's own. The entry stays.
refuses_odd_words() {
  local it
  prepare "$1"
  add && cp "$root/efi/EFI/Linux/$entry.efi" before
  for it in --cmdlin=x quiet -- --splash; do
    echo "$it" >"$root/etc/kernel/boot_tools.options"
    add >"$room/out" 2>"$room/err" && return 1
    has "$room/err" 'usage: '
  done
  echo --output=/x.efi >"$root/etc/kernel/boot_tools.options"
  add >"$room/out" 2>"$room/err" && return 1
  has "$room/err" "--output, which is the hook's own"
  cmp before "$root/efi/EFI/Linux/$entry.efi"
}

passes_over_comments() {
  prepare "$1"
  printf '# the root disk\nroot=/dev/vda2\n  # and more\n\n  ro quiet\n' >"$root/etc/kernel/cmdline"
  ends 0 add
  is_image "$entry.efi" boot/initrd
  echo '# none' >"$root/etc/kernel/cmdline"
  ends 0 add
  has "$room/err" '60-boot_tools.install: the command line is empty'
}

# The settings of uki.conf aren't taken, and are named. One without settings is passed over.
tells_of_ukis_settings() {
  prepare "$1"
  printf '[UKI]\n#Linux=x\nSplash=/x\n; Stub=y\nSecureBootPrivateKey = /y\n[PCRSignature:a]\nPhases=z\n' >"$root/etc/kernel/uki.conf"
  ends 0 add
  has "$room/err" 'of /etc/kernel/uki.conf nothing is taken: Splash SecureBootPrivateKey Phases.'
  is_image "$entry.efi" boot/initrd
  printf '[UKI]\n#Linux=x\n' >"$root/etc/kernel/uki.conf"
  ends 0 add
  same "$(told_of_stub "$1")" "$(cat "$room/err")"
}

# --- a full partition

# The hook that enters and removes, without kernel-install, for a FAT of so many KiB at `esp`, and images that it is to enter.
prepare_fat() {
  needs mkfs.vfat
  [[ -e $roots/backports$stub ]] || take_root backports
  mkdir -p bin esp staging && ln -s "$program" bin/boot_tools && cp "$roots/backports$stub" stub && printf 'ID=x\nPRETTY_NAME=X\n' >release
  truncate -s "$1K" fat && mkfs.vfat fat >mkfs.log
  mount -o loop fat esp 2>mount.log || skip "no FAT can be mounted here"
}

by_hook() { # by_hook add|remove VERSION [SIZE]: a new image of that size
  if [[ $1 == add ]]; then
    head -c "$3" /dev/urandom >kernel
    "$program" ukify build --stub=stub --linux=kernel --os-release=@release --output=staging/uki.efi
  fi
  PATH=$PWD/bin:$PATH KERNEL_INSTALL_LAYOUT=uki KERNEL_INSTALL_UKI_GENERATOR=boot_tools KERNEL_INSTALL_STAGING_AREA=$PWD/staging \
    KERNEL_INSTALL_BOOT_ROOT=$PWD/esp KERNEL_INSTALL_ENTRY_TOKEN=token KERNEL_INSTALL_CONF_ROOT=$PWD \
    "$top/share/kernel-install/90-boot_tools.install" "$1" "$2" - /none
}

images_there() { (cd esp/EFI/Linux && echo *); }

# Three kernels on a FAT that has room for one image and a half: the second fails, and its temporary file is gone; so once the first is removed,
# the third has room. The partition is FAT, and nothing is told of it.
goes_on_after_a_full_partition() {
  prepare_fat 700
  ends 0 by_hook add a 300000
  same '' "$(cat "$room/err")"
  ends 3 by_hook add b 300000
  has "$room/err" 'No space left on device'
  has "$room/err" '/esp is full; the temporary file of the failed run is gone again'
  has "$room/err" 'espctl keep 2 --per-key --dry-run says which entries could go'
  same token-a.efi "$(images_there)"
  ends 0 by_hook remove a
  ends 0 by_hook add c 300000
  same token-c.efi "$(images_there)"
  umount esp
}

# The image that is replaced is in the way. If another blessed entry is left, it is named with what removes it; and if that is typed, the new one
# has room. If none is left, no line says that it may go.
names_what_is_in_the_way() {
  prepare_fat 1000
  ends 0 by_hook add a 300000 && ends 0 by_hook add b 300000
  ends 3 by_hook add b 300000
  has "$room/err" '90-boot_tools.install: token-b.efi is in the way. While token-a.efi can be booted, it may go: espctl unlink token-b.efi'
  same 'token-a.efi token-b.efi' "$(images_there)"
  "$program" bootctl unlink token-b.efi --esp-path=esp
  ends 0 by_hook add b 300000
  same 'token-a.efi token-b.efi' "$(images_there)"
  "$program" bootctl unlink token-a.efi --esp-path=esp
  ends 3 by_hook add b 700000
  has "$room/err" '90-boot_tools.install: token-b.efi is in the way, but no other entry has booted well: make room by something else'
  same '' "$(grep 'may go' "$room/err")"
  same token-b.efi "$(images_there)"
  umount esp
}

# --- signatures

make_keys() {
  needs openssl
  openssl genrsa -out "$root/etc/kernel/pcr-private.pem" 2048 2>/dev/null
  openssl rsa -in "$root/etc/kernel/pcr-private.pem" -pubout -out "$root/etc/kernel/pcr-public.pem" 2>/dev/null
  printf '# phases\n--phase=enter-initrd\n--phase=\n' >"$root/etc/kernel/boot_tools.phases"
  rm -f "$root/etc/systemd/tpm2-pcr-signature.json"
}

# The signatures as sign-values writes them, of an image at both phases.
signatures_of() {
  (cd / && "$program" measure image "$1" --bank=sha256 --phase=enter-initrd --phase=) |
    "$top/share/lib/sign-values" "$root/etc/kernel/pcr-private.pem" "$root/etc/kernel/pcr-public.pem"
}

objects() { grep -o '{"pcrs":[^}]*}' | sort; }
policies() { grep -o '"pol":"[^"]*"' | sort; }

# A system in which the hooks sign by openssl, which a bare one doesn't have.
prepare_signing() {
  prepare "$1"
  [[ -e $root/usr/bin/openssl ]] || in_root sh -c 'apt-get -qq update && apt-get -qq -y install openssl' >/dev/null 2>&1 ||
    skip "no openssl can be had"
  make_keys
}

# The image has its own signatures, and the public key; these don't change its values.
signs_its_own_values() {
  local image
  prepare_signing "$1"
  image=$root/efi/EFI/Linux/$entry.efi
  ends 0 add
  section_of "$image" .pcrpkey | cmp - "$root/etc/kernel/pcr-public.pem"
  same "$(signatures_of "$image")" "$(section_of "$image" .pcrsig)"
  same "$(signatures_of "$image")" "$(cat "$root/etc/systemd/tpm2-pcr-signature.json")"
  same 2 "$(policies <"$root/etc/systemd/tpm2-pcr-signature.json" | wc -l)"
  rm "$root/etc/kernel/pcr-private.pem" && echo 'root=/dev/other' >"$root/etc/kernel/cmdline" && cp "$image" before
  ends 1 add
  has "$room/err" 'boot_tools.phases wants a pcr-private.pem beside it'
  cmp before "$image"
}

# A stray image on the partition gets no signature. One that can't be read is told of, and takes none away from its neighbours.
signs_nothing_else() {
  local images json
  prepare_signing "$1"
  images=$root/efi/EFI/Linux json=$root/etc/systemd/tpm2-pcr-signature.json
  rm "$images"/*
  ends 0 kernel_install add 1 /boot/vmlinuz && : >"$images/token-2.efi"
  in_root sh -c 'cd / && boot_tools ukify build "$@"' sh "--stub=$stub" --linux=boot/vmlinuz --os-release=ID=x --cmdline=init=/bin/sh \
    --output=efi/EFI/Linux/debian-evil.efi
  ends 0 kernel_install add 3 /boot/vmlinuz
  has "$room/err" '/efi/EFI/Linux/token-2.efi are left out: refusal 4'
  same "$({ signatures_of "$images/token-1.efi" && signatures_of "$images/token-3.efi"; } | objects)" "$(objects <"$json")"
  same '' "$(comm -12 <(signatures_of "$images/debian-evil.efi" | policies) <(policies <"$json"))"
  cp "$images/token-3.efi" before && echo 'root=/dev/other' >"$root/etc/kernel/cmdline"
  ends 0 kernel_install add 3 /boot/vmlinuz
  same "$({ signatures_of "$images/token-1.efi" && signatures_of "$PWD/before" && signatures_of "$images/token-3.efi"; } | objects)" \
    "$(objects <"$json")"
  mkdir -p "$root/efi/EFI/pinned" && cp "$images/token-1.efi" "$root/efi/EFI/pinned"
  ends 0 kernel_install remove 1
  ends 0 kernel_install add 3 /boot/vmlinuz
  same "$({ signatures_of "$root/efi/EFI/pinned/token-1.efi" && signatures_of "$images/token-3.efi"; } | objects)" "$(objects <"$json")"
  rm -r "$root/efi/EFI/pinned"
  ends 0 kernel_install add 3 /boot/vmlinuz
  same "$(signatures_of "$images/token-3.efi" | objects)" "$(objects <"$json")"
}

# Without the file of phases nothing is signed.
signs_if_it_is_asked() {
  prepare_signing "$1"
  rm "$root/etc/kernel/boot_tools.phases"
  ends 0 add
  is_image "$entry.efi" boot/initrd
  [[ ! -e $root/etc/systemd/tpm2-pcr-signature.json ]]
}

# --- the page on a bare system

# The blocks of the page from a fresh system to a second disk's values, as they stand, in a system without the boot loader and without python3, in
# which two kernels are that are none. A `stat` of the test's says that /boot/efi is the partition.
page_works_on() {
  local release it
  [[ -e $room/package.deb ]] || skip "no package was made"
  take_root "$1"
  root=$room/bare && cp -a "$roots/$1" "$root" && mount -t proc proc "$root/proc" && mount -t tmpfs tmpfs "$root/dev"
  mknod -m 666 "$root/dev/null" c 1 3 && mknod -m 666 "$root/dev/urandom" c 1 9
  [[ ! -e $root/usr/bin/python3 ]]
  in_root apt-get -qq update || skip "nothing can be fetched"
  in_root apt-get -qq -y purge systemd-boot systemd-boot-efi
  rm -rf "$root/etc/kernel/install.conf" "$root/etc/apt/sources.list.d/backports.list"
  mkdir -p "$root/boot/efi" "$root/tmp/front" "$root/tmp/typed"
  mount --bind "$root/boot/efi" "$root/boot/efi"
  cp "$room/package.deb" "$root/tmp/typed/boot-tools_1_amd64.deb"
  for release in 6.1.0-56-amd64 6.1.0-57-amd64; do
    mkdir -p "$root/lib/modules/$release"
    head -c 70000 /dev/urandom >"$root/boot/vmlinuz-$release" && head -c 50000 /dev/urandom >"$root/boot/initrd.img-$release"
  done
  mounted_at /boot/efi
  awk '/^## /{ on = /^## From a fresh|^## A disk that opens/ } on && /^```sh$/ { name = sprintf("block.%02d", ++count); next } /^```$/ { name = "" }
    name { print > name }' "$top/docs/TASKS.md"
  for it in block.*; do
    cp "$it" "$root/tmp/typed/block"
    # shellcheck disable=SC2016  # the shell in the system sets it
    in_root sh -c 'cd /tmp/typed && export PATH=/tmp/front:$PATH SYSTEMD_RELAX_ESP_CHECKS=1 DEBIAN_FRONTEND=noninteractive && exec bash -ex block' \
      </dev/null
  done
  same 'debian-6.1.0-56-amd64+3.efi debian-6.1.0-57-amd64+3.efi' "$(cd "$root/boot/efi/EFI/Linux" && echo *)"
  same '' "$(find "$root/boot/efi/loader/entries" -type f 2>/dev/null)"
  same 2 "$(policies <"$root/etc/systemd/tpm2-pcr-signature.json" | wc -l)"
  same "$(tr ' ' '\n' </proc/cmdline | grep -v -e '^BOOT_IMAGE=' -e '^initrd=' | xargs)" "$(xargs <"$root/etc/kernel/cmdline")"
  same "$(cat "$root/etc/kernel/cmdline")" "$(section_of "$root/boot/efi/EFI/Linux/debian-6.1.0-57-amd64+3.efi" .cmdline)"
  umount "$root/proc" "$root/dev" "$root/boot/efi" && rm -rf --one-file-system "$root"
  echo "counted: $(find . -name 'block.*' | wc -l) blocks"
}

# A root disk that the initrd opens, in a guest with firmware and a TPM.
opens_the_root_disk() {
  needs qemu-system-x86_64 swtpm cryptsetup sfdisk mcopy mkfs.ext4 objcopy
  [[ -e /usr/share/OVMF/OVMF_CODE_4M.fd ]] || skip "no ovmf here"
  [[ $(uname -m) == x86_64 ]] || skip "the guest's programs are of another machine"
  [[ -e $room/package.deb ]] || skip "no package was made"
  take_root debian13
  "$top/tools/sealed-boot" --root "$room/package.deb" "$roots/debian13"
}
