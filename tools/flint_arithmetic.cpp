// The program arithmetic_bench with FLINT's nmod_mpoly: the same words, operands and lines.
//
// usage: flint_arithmetic OPERATION FILL VARIABLES SIDE LEFT RIGHT REPEATS coefficients|products
//
// With the last word "coefficients" a pseudo-remainder is made by FLINT's own function over polynomials
// in one variable, with "products" by eliminations, each two products and a difference.
#include <flint/nmod_mpoly.h>

#include <algorithm>
#include <cstdint>
#include <cstdio>
#include <cstdlib>
#include <cstring>

// It isn't in FLINT's headers. It puts in place of a the pseudo-remainder of a by b, times (-1)^(n + 1)
// where n is the difference of their degrees.
extern "C" void mpoly_univar_prem(mpoly_univar_t a, const mpoly_univar_t b, mpoly_univar_t scratch,
                                  mpoly_void_ring_t ring);

namespace {

const ulong prime = 65521;
const uint64_t factor = 6364136223846793005u;
const uint64_t step = 1442695040888963407u;

struct Trial {
    const char *operation, *fill;
    int variables;
    uint32_t side, left, right, repeats;
};

nmod_mpoly_ctx_t ctx;
uint64_t state = 1;

uint32_t below(uint32_t bound) {
    state = state * factor + step;
    return (uint32_t)(state >> 33) % bound;
}

// FLINT's first variable is the greatest.
void operand(nmod_mpoly_t a, const Trial &trial, uint32_t count) {
    bool dense = !strcmp(trial.fill, "dense");
    nmod_mpoly_zero(a, ctx);
    for (uint32_t place = 0; place < count; place++) {
        ulong exponents[16];
        uint32_t left = place;
        for (int v = 0; v < trial.variables; v++) {
            uint32_t digit = v + 1 < trial.variables ? left % trial.side : left;
            left /= trial.side;
            uint32_t exponent = dense ? digit : below(trial.side);
            exponents[trial.variables - 1 - v] = std::min<uint32_t>(exponent, 65535);
        }
        nmod_mpoly_push_term_ui_ui(a, 1 + below(prime - 1), exponents, ctx);
    }
    nmod_mpoly_sort_terms(a, ctx);
    nmod_mpoly_combine_like_terms(a, ctx);
}

bool remainder_by_coefficients(nmod_mpoly_t last, const nmod_mpoly_t f, const nmod_mpoly_t g) {
    mpoly_void_ring_t ring;
    mpoly_void_ring_init_nmod_mpoly_ctx(ring, ctx);
    nmod_mpoly_univar_t a, b, scratch;
    nmod_mpoly_univar_init(a, ctx);
    nmod_mpoly_univar_init(b, ctx);
    nmod_mpoly_univar_init(scratch, ctx);
    nmod_mpoly_to_univar(a, f, 0, ctx);
    nmod_mpoly_to_univar(b, g, 0, ctx);
    slong high = nmod_mpoly_univar_get_term_exp_si(a, 0, ctx);
    slong low = nmod_mpoly_univar_get_term_exp_si(b, 0, ctx);
    // Both records have the same fields, and FLINT's own calls cast them.
    mpoly_univar_prem((mpoly_univar_struct *)a, (const mpoly_univar_struct *)b,
                      (mpoly_univar_struct *)scratch, ring);
    nmod_mpoly_from_univar(last, a, 0, ctx);
    if ((high - low) % 2 == 0) nmod_mpoly_neg(last, last, ctx);
    nmod_mpoly_univar_clear(a, ctx);
    nmod_mpoly_univar_clear(b, ctx);
    nmod_mpoly_univar_clear(scratch, ctx);
    return true;
}

void lead(nmod_mpoly_t c, const nmod_mpoly_t a, slong degree) {
    slong variable = 0;
    ulong exponent = degree;
    nmod_mpoly_get_coeff_vars_ui(c, a, &variable, &exponent, 1, ctx);
}

bool remainder_by_products(nmod_mpoly_t last, const nmod_mpoly_t f, const nmod_mpoly_t g) {
    nmod_mpoly_t l, m, power, first, second;
    nmod_mpoly_init(l, ctx);
    nmod_mpoly_init(m, ctx);
    nmod_mpoly_init(power, ctx);
    nmod_mpoly_init(first, ctx);
    nmod_mpoly_init(second, ctx);
    slong low = nmod_mpoly_degree_si(g, 0, ctx);
    slong turns = nmod_mpoly_degree_si(f, 0, ctx) - low + 1;
    lead(l, g, low);
    nmod_mpoly_set(last, f, ctx);
    for (; turns > 0; turns--) {
        slong high = nmod_mpoly_degree_si(last, 0, ctx);
        nmod_mpoly_mul(first, l, last, ctx);
        if (high < low) {
            nmod_mpoly_swap(last, first, ctx);
            continue;
        }
        lead(m, last, high);
        nmod_mpoly_gen(power, 0, ctx);
        nmod_mpoly_pow_ui(power, power, high - low, ctx);
        nmod_mpoly_mul(m, m, power, ctx);
        nmod_mpoly_mul(second, m, g, ctx);
        nmod_mpoly_sub(last, first, second, ctx);
    }
    nmod_mpoly_clear(l, ctx);
    nmod_mpoly_clear(m, ctx);
    nmod_mpoly_clear(power, ctx);
    nmod_mpoly_clear(first, ctx);
    nmod_mpoly_clear(second, ctx);
    return true;
}

// What the operation gives the last time. False where it gives nothing.
bool last_result(nmod_mpoly_t last, const Trial &trial, bool by_products) {
    nmod_mpoly_t left, right, product;
    nmod_mpoly_init(left, ctx);
    nmod_mpoly_init(right, ctx);
    nmod_mpoly_init(product, ctx);
    operand(left, trial, trial.left);
    operand(right, trial, trial.right);
    bool some = true;
    nmod_mpoly_set(last, left, ctx);
    if (!strcmp(trial.operation, "mul")) {
        for (uint32_t i = 0; i < trial.repeats; i++)
            nmod_mpoly_mul(last, left, right, ctx);
    } else if (!strcmp(trial.operation, "quo")) {
        nmod_mpoly_mul(product, left, right, ctx);
        nmod_mpoly_set(last, product, ctx);
        for (uint32_t i = 0; i < trial.repeats; i++)
            some = nmod_mpoly_divides(last, product, right, ctx);
    } else {
        slong low = nmod_mpoly_degree_si(right, 0, ctx);
        some = low > 0 && nmod_mpoly_degree_si(left, 0, ctx) >= low;
        for (uint32_t i = 0; some && i < trial.repeats; i++)
            some = by_products ? remainder_by_products(last, left, right)
                               : remainder_by_coefficients(last, left, right);
    }
    nmod_mpoly_clear(left, ctx);
    nmod_mpoly_clear(right, ctx);
    nmod_mpoly_clear(product, ctx);
    return some;
}

void write(const Trial &trial, bool some, const nmod_mpoly_t last) {
    printf("%s %s %d %u %u %u: ", trial.operation, trial.fill, trial.variables, trial.side,
           trial.left, trial.right);
    if (!some) {
        printf("nothing\n");
        return;
    }
    uint64_t sum = 0, digest = 0;
    slong count = nmod_mpoly_length(last, ctx);
    for (slong i = 0; i < count; i++) {
        ulong exponents[16];
        nmod_mpoly_get_term_exp_ui(exponents, last, i, ctx);
        ulong c = nmod_mpoly_get_term_coeff_ui(last, i, ctx);
        for (int v = trial.variables - 1; v >= 0; v--) digest = digest * factor + exponents[v];
        digest = digest * factor + c;
        sum += c;
    }
    printf("%ld terms, sum %lu, digest %lu\n", (long)count, (unsigned long)sum,
           (unsigned long)digest);
}

}  // namespace

int main(int argc, char **argv) {
    if (argc != 9) {
        fprintf(stderr, "usage: flint_arithmetic OPERATION FILL VARIABLES SIDE LEFT RIGHT REPEATS "
                        "coefficients|products\n");
        return 2;
    }
    auto number = [&](int i) { return (uint32_t)strtoul(argv[i], nullptr, 10); };
    Trial trial = {argv[1], argv[2], (int)number(3), number(4), number(5), number(6), number(7)};
    nmod_mpoly_ctx_init(ctx, trial.variables, ORD_LEX, prime);
    nmod_mpoly_t last;
    nmod_mpoly_init(last, ctx);
    bool some = last_result(last, trial, !strcmp(argv[8], "products"));
    write(trial, some, last);
    nmod_mpoly_clear(last, ctx);
    nmod_mpoly_ctx_clear(ctx);
    return 0;
}
