/* The archive's version is the header's, in each of its forms. */
#include "harness.h"

#include <inttypes.h>
#include <stdio.h>
#include <string.h>

/* A driver may ask for a version before it is compiled further. */
#if GMV_VERSION_NUMBER < 1001000
#error "the header has no version, or one from before there was any"
#endif

void test_version(void)
{
    const uint64_t version = gmv_version();
    char text[64];

    begin_test("the archive's version is the header's number");
    CHECK(version == GMV_VERSION_NUMBER);
    begin_test("the text of the version has the number's parts");
    snprintf(text, sizeof text, "%" PRIu64 ".%" PRIu64 ".%" PRIu64, version / 1000000,
             version / 1000 % 1000, version % 1000);
    CHECK(strcmp(text, GMV_VERSION) == 0);
    begin_test("the parts of the version leave each other alone");
    CHECK(version / 1000000 == GMV_VERSION_MAJOR && GMV_VERSION_MINOR < 1000 && GMV_VERSION_PATCH < 1000);
}
