/* Work on texts: words, searches, numbers, and a table of counts. */
#include "support.h"

static const char sample[] =
	"A record is a row of fields, and a field has an offset, a size and a type.\n"
	"The compiler places each field at the next multiple of its alignment, so that\n"
	"a load or a store of the field, in a loop or not, never crosses such a multiple.\n";

static int is_letter(char c)
{
	return (c >= 'a' && c <= 'z') || (c >= 'A' && c <= 'Z');
}

static char upper(char c)
{
	return c >= 'a' && c <= 'z' ? c - 'a' + 'A' : c;
}

static void reverse(char *text, int count)
{
	for (int i = 0, j = count - 1; i < j; i++, j--) {
		char kept = text[i];
		text[i] = text[j];
		text[j] = kept;
	}
}

static int count_of(const char *text, const char *wanted)
{
	int count = 0;
	for (; *text; text++) {
		const char *t = text, *w = wanted;
		while (*w && *t == *w) {
			t++;
			w++;
		}
		count += !*w;
	}
	return count;
}

static void show_words_reversed(void)
{
	char text[sizeof sample];
	memcpy(text, sample, sizeof sample);
	for (int i = 0; text[i];) {
		int from = i;
		while (is_letter(text[i]))
			i++;
		reverse(text + from, i - from);
		if (!is_letter(text[i]))
			i += text[i] != 0;
	}
	print(text);
}

static void show_letters(void)
{
	unsigned short counts[256];
	memset(counts, 0, sizeof counts);
	for (const char *c = sample; *c; c++)
		counts[(byte)upper(*c)]++;
	for (int c = 0; c < 256; c++)
		if (counts[c]) {
			print_hexadecimal(c);
			print("=");
			print_unsigned(counts[c]);
			print(" ");
		}
	print("\n");
}

static int number_of(const char *text)
{
	int sign = *text == '-', number = 0;
	for (text += sign; *text >= '0' && *text <= '9'; text++)
		number = number * 10 + (*text - '0');
	return sign ? -number : number;
}

static unsigned hash(const char *text)
{
	unsigned mixed = 2166136261u;
	for (; *text; text++)
		mixed = (mixed ^ (byte)*text) * 16777619u;
	return mixed;
}

static int kind(char c)
{
	switch (c) {
	case ' ': return 1;
	case '\n': return 2;
	case ',': return 3;
	case '.': return 4;
	case 'a': case 'e': case 'i': case 'o': case 'u': return 5;
	case 'x': return 6;
	default: return is_letter(c) ? 7 : 8;
	}
}

int main(void)
{
	static const char *const numbers[] = {"0", "-1", "2147483647", "-2147483647", "00123x", ""};
	unsigned kinds = 0;
	show_words_reversed();
	show_letters();
	for (int i = 0; i < 6; i++) {
		print_signed(number_of(numbers[i]) / 7);
		print(" ");
		print_signed(number_of(numbers[i]) % 7);
		print("\n");
	}
	for (const char *c = sample; *c; c++)
		kinds = kinds * 9 + kind(*c);
	print_line("kinds", kinds);
	print_line("hash", hash(sample));
	print_signed(strcmp("abc", "abd"));
	print_signed(strcmp("b", "abd"));
	print_signed(memcmp("a\377", "a\1", 2));
	print("\n");
	return count_of(sample, "a") * 4 + count_of(sample, "th");
}
