/* A host in C that asks whether header and library belong together: ends with 0 if they do. */
#include "birkenschuh.h"

int main(void) { return BKS_MATCHES() ? 0 : 1; }
