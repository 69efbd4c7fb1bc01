// Prints which entry the boot loader has chosen, and turns the machine off: it stands for a kernel in tools/lab/pages.bash.
typedef unsigned long long word;
typedef __attribute__((ms_abi)) word (*call)(word, ...);

struct table { // of UEFI 2.10: the head of a table, and then what stands in it
  word head[3];
  call calls[];
};

static const unsigned short name[] = u"LoaderEntrySelected";
static const unsigned char vendor[] = {0x82, 0xb0, 0x67, 0x4a, 0x4c, 0x0a, 0xcf, 0x41, 0xb6, 0xc7, 0x44, 0x0b, 0x29, 0xbb, 0x8c, 0x4f};

__attribute__((ms_abi)) word start(word image, word *system) {
  word output = system[8], size = 1000;
  struct table *runtime = (struct table *)system[11];
  unsigned short chosen[512] = {0};
  (void)image;
  runtime->calls[6]((word)name, (word)vendor, 0, (word)&size, (word)chosen);
  call print = ((call *)output)[1];
  print(output, (word)u"\r\nguest: ");
  print(output, (word)chosen);
  print(output, (word)u"\r\n");
  runtime->calls[10](2, 0, 0, 0);
  return 0;
}
