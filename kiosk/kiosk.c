/*
 * Asks the layout's questions, a line each, and prints a line for each:
 *
 *     place D ADDR LEN                  place result=R kind=K
 *     overlap D A1 L1 A2 L2             overlap result=R yes=B
 *     other D ADDR                      other result=R addr=A
 *     range D BYTES START BLOCKS        range front_result=R front_start=S front_len=L back_result=R back_start=S back_len=L
 *     anything else                     error
 *
 * A number is decimal, without leading zeros, below 2^64; one space stands before each number, and nothing else. layout.h says what the numbers
 * mean. The status is 0, or 1 where the input couldn't be read or the output written.
 */
#include "layout.h"

#include <inttypes.h>
#include <stdbool.h>
#include <stddef.h>
#include <stdint.h>
#include <stdio.h>
#include <string.h>

/* The longest question is `overlap` with five numbers of 20 digits. Of a longer line one byte more is kept, so it is no question. */
enum { NUMBERS_MAX = 5, QUESTION_MAX = 7 + NUMBERS_MAX * (1 + 20), LINE_KEPT = QUESTION_MAX + 1 };

struct line {
	char text[LINE_KEPT]; /* any bytes, 0 among them, so not a string */
	size_t len;
};

/* Reads a line up to its line feed, which isn't kept, or to the end of the input; false where there is none, or it couldn't be read to its end. */
static bool read_line(FILE *in, struct line *line)
{
	int c = getc(in);
	bool there = c != EOF;
	line->len = 0;
	while (c != EOF && c != '\n') {
		if (line->len < LINE_KEPT)
			line->text[line->len++] = (char)c;
		c = getc(in);
	}
	return there && !ferror(in);
}

static bool take_word(const struct line *line, const char *word, size_t *at)
{
	*at = strlen(word);
	return line->len >= *at && memcmp(line->text, word, *at) == 0;
}

static bool digit_at(const struct line *line, size_t at)
{
	return at < line->len && line->text[at] >= '0' && line->text[at] <= '9';
}

/* A space and a number, at `at`, which moves on behind them. */
static bool take_number(const struct line *line, size_t *at, uint64_t *number)
{
	if (*at >= line->len || line->text[*at] != ' ')
		return false;
	size_t first = ++*at;
	for (*number = 0; digit_at(line, *at); ++*at) {
		uint64_t digit = (uint64_t)(line->text[*at] - '0');
		if (*number > (UINT64_MAX - digit) / 10)
			return false;
		*number = *number * 10 + digit;
	}
	size_t digits = *at - first;
	return digits == 1 || (digits > 1 && line->text[first] != '0');
}

static void print_place(const uint64_t *n)
{
	printf("place result=%" PRIu64 " kind=%" PRIu64 "\n", layout_place_result(n[0], n[1], n[2]), layout_place_kind(n[0], n[1], n[2]));
}

static void print_overlap(const uint64_t *n)
{
	uint64_t result = layout_overlap_result(n[0], n[1], n[2], n[3], n[4]);
	uint64_t yes = layout_overlap(n[0], n[1], n[2], n[3], n[4]);
	printf("overlap result=%" PRIu64 " yes=%" PRIu64 "\n", result, yes);
}

static void print_other(const uint64_t *n)
{
	printf("other result=%" PRIu64 " addr=%" PRIu64 "\n", layout_other_table_result(n[0], n[1]), layout_other_table_addr(n[0], n[1]));
}

static void print_part(const char *name, uint64_t result, uint64_t start, uint64_t len)
{
	printf(" %s_result=%" PRIu64 " %s_start=%" PRIu64 " %s_len=%" PRIu64, name, result, name, start, name, len);
}

static void print_range(const uint64_t *n)
{
	uint64_t front_result = layout_front_result(n[0], n[1], n[2], n[3]);
	uint64_t back_result = layout_back_result(n[0], n[1], n[2], n[3]);
	printf("range");
	print_part("front", front_result, layout_front_start(n[0], n[1], n[2], n[3]), layout_front_len(n[0], n[1], n[2], n[3]));
	print_part("back", back_result, layout_back_start(n[0], n[1], n[2], n[3]), layout_back_len(n[0], n[1], n[2], n[3]));
	printf("\n");
}

struct question {
	const char *word;
	size_t numbers;
	void (*print)(const uint64_t *n);
};

static const struct question QUESTIONS[] = {
	{"place", 3, print_place},
	{"overlap", 5, print_overlap},
	{"other", 2, print_other},
	{"range", 4, print_range},
};

/* Whether the line is this question, to its last byte; if so, with these numbers. */
static bool asks(const struct line *line, const struct question *question, uint64_t *numbers)
{
	size_t at = 0;
	bool good = take_word(line, question->word, &at);
	for (size_t k = 0; good && k < question->numbers; k++)
		good = take_number(line, &at, &numbers[k]);
	return good && at == line->len;
}

static void answer(const struct line *line)
{
	uint64_t numbers[NUMBERS_MAX] = {0};
	for (size_t k = 0; k < sizeof QUESTIONS / sizeof QUESTIONS[0]; k++) {
		if (asks(line, &QUESTIONS[k], numbers)) {
			QUESTIONS[k].print(numbers);
			return;
		}
	}
	puts("error");
}

static int failed(const char *what)
{
	fprintf(stderr, "kiosk: %s\n", what);
	return 1;
}

int main(void)
{
	struct line line;
	while (!ferror(stdout) && read_line(stdin, &line))
		answer(&line);
	if (fflush(stdout) != 0 || ferror(stdout))
		return failed("the output couldn't be written");
	if (ferror(stdin))
		return failed("the input couldn't be read");
	return 0;
}
