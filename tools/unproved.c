/* What an unproved build says beside the line of its version, on standard error: wherever it lies, and whatever it is called.
 * tools/keeping-linker links it in. It has no header, since a kit has none of C. */
extern long write(int, const void *, unsigned long);

static int are_same(const char *word, const char *other) {
  while (*word && *word == *other)
    word++, other++;
  return *word == *other;
}

__attribute__((constructor)) static void say(int count, char **words) {
  static const char not_proved[] = "NOT PROVED: linked by rt try, without a proof\n";
  if (count == 2 && (are_same(words[1], "--version") || are_same(words[1], "-V")))
    (void)!write(2, not_proved, sizeof not_proved - 1);
}
