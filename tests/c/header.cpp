// The header in C++: it compiles, and what it declares links with the archive.
#include "highvane.h"

int main() {
    highvane_unsigned accepted = highvane_product_unsigned(HIGHVANE_MITCHELL, 8, 0, 3, 3);
    return accepted.product == 8 && highvane_refusal_text(accepted.refusal)[0] == 'a' ? 0 : 1;
}
