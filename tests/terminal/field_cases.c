/* The field calls on random fields and points. Assumes nothing. */
#include <string.h>

#include "cases.h"
#include "field_calls.h"
#include "random.h"

static struct made_field made;

/* Small corners, judged by the rule's own words as well: the judge's two ways have to agree before the library is asked. */
static void small_fields(uint64_t rounds, int64_t size) {
    for (uint64_t i = 0; i < rounds; i++) {
        small_field(&made, size);
        struct field_verdict verdict = lay_field(&made), words = judge_field(laid_field(), &BY_SEARCH);
        int64_t px = random_between(-1, size + 1), py = random_between(-1, size + 1);
        int stands = judge_standing(laid_field(), &BY_COMPUTING, px, py) == judge_standing(laid_field(), &BY_SEARCH, px, py);
        int alike = verdict.accept == words.accept && verdict.position == words.position && memcmp(verdict.where, words.where, sizeof words.where) == 0;
        expect_judge(alike && stands, "field by the rule's words");
        try_field(2);
        try_field_point(px, py);
    }
}

void field_cases(uint64_t rounds) {
    for (uint64_t i = 0; i < rounds / 10; i++) {
        random_field(&made);
        lay_field(&made);
        try_field(3);
    }
    small_fields(rounds / 40, 4);
    small_fields(rounds / 100, 6);
    for (uint64_t i = 0; i < rounds / 25000; i++) {
        large_field(&made);
        lay_field(&made);
        try_field(20);
    }
}
