// Checks the names of pages of include/mc2_record.h. header.c includes it.

static uint32_t name_of(struct mc2_page_names *names, uint64_t real) { return mc2_priv_page_name(names, &real); }

// Real pages have the lowest free names, as long as they are given out.
static void check_page_names(void) {
    static struct mc2_page_names names = {3, {0}, {0}};
    CHECK(name_of(&names, 0) == 3 && mc2_page_returned(&names, 77, false) == 0);
    CHECK(mc2_page_given(&names, UINT64_MAX) == 0 && mc2_page_given(&names, 0) == 1 && mc2_page_given(&names, 5) == 2);
    CHECK(name_of(&names, 0) == 1 && mc2_page_given(&names, 6) == 3 && mc2_page_given(&names, 5) == 2);
    CHECK(mc2_page_returned(&names, 6, false) == 3);
    CHECK(mc2_page_returned(&names, 0, false) == 1 && name_of(&names, 0) == 1);
    CHECK(mc2_page_returned(&names, 0, true) == 1 && name_of(&names, 0) == 3);
    CHECK(mc2_page_returned(&names, 0, false) == 1 && mc2_page_given(&names, 6) == 1);
    CHECK(mc2_page_returned(&names, UINT64_MAX, true) == 0 && mc2_page_given(&names, 9) == 0);
}

// A pool of more pages than a record may have is named as one of 4,096.
static void check_many_pages(void) {
    static const uint32_t pages[] = {MC2_PAGE_NAMES, MC2_PAGE_NAMES + 1, UINT32_MAX};
    for (unsigned at = 0; at < 3; at++) {
        // At the end of a block, so that a sanitizer sees what is read after it.
        struct mc2_page_names *names = (struct mc2_page_names *)calloc(1, sizeof *names);
        CHECK(names != NULL);
        names->pages = pages[at];
        for (uint32_t page = 0; page < MC2_PAGE_NAMES; page++)
            CHECK(mc2_page_given(names, page + 7) == page);
        CHECK(mc2_page_given(names, 0) == MC2_PAGE_NAMES && mc2_page_returned(names, 0, false) == MC2_PAGE_NAMES);
        CHECK(mc2_page_returned(names, 11, true) == 4 && mc2_page_given(names, 0) == 4);
        free(names);
    }
}
