/* The two sets of calls on tables, as values: what both promise is tried on both by one text. That each call has the arguments of its fellow
 * in the other set, const ones too, is tried by the compiler. Included after include/soodhiqune.h. */

struct calls {
    const char *whose; /* before the name of a call, where something is said of it */
    enum soodhiqune_answer links; /* what the step answers that links a claim */
    size_t (*node_words)(size_t nodes), (*seat_words)(size_t seats);
    uint64_t (*clear)(uint32_t *, size_t, uint32_t *, size_t, uint32_t);
    uint64_t (*reserve)(uint32_t *, size_t, uint32_t *, size_t, uint32_t, uint32_t, uint32_t, uint32_t);
    uint64_t (*enter)(const uint32_t *, size_t, uint32_t *, size_t, uint32_t);
    uint64_t (*step)(uint32_t *, size_t, uint32_t *, size_t, uint32_t, uint32_t *);
    uint64_t (*release)(uint32_t *, size_t, uint32_t *, size_t, uint32_t);
    uint64_t (*run)(uint32_t *, size_t, uint32_t *, size_t, const uint32_t *, size_t, uint32_t);
    uint64_t (*board)(const uint32_t *, size_t, const uint32_t *, size_t, uint32_t *, size_t, uint64_t *);
    uint64_t (*free_count)(const uint32_t *, size_t, const uint32_t *, size_t);
};

static size_t ordinary_node_words(size_t nodes) { return SOODHIQUNE_NODE_WORDS(nodes); }
static size_t ordinary_seat_words(size_t seats) { return SOODHIQUNE_SEAT_WORDS(seats); }
static size_t sheet_node_words(size_t nodes) { return SOODHIQUNE_SHEET_NODE_WORDS(nodes); }
static size_t sheet_seat_words(size_t seats) { return SOODHIQUNE_SHEET_SEAT_WORDS(seats); }

static const struct calls ordinary = {"", SOODHIQUNE_ON, ordinary_node_words, ordinary_seat_words, soodhiqune_clear, soodhiqune_reserve,
    soodhiqune_enter, soodhiqune_step, soodhiqune_release, soodhiqune_run, soodhiqune_board, soodhiqune_free_count};
static const struct calls sheet = {"a sheet's ", SOODHIQUNE_HELD, sheet_node_words, sheet_seat_words, soodhiqune_sheet_clear,
    soodhiqune_sheet_reserve, soodhiqune_sheet_enter, soodhiqune_sheet_step, soodhiqune_sheet_release, soodhiqune_sheet_run,
    soodhiqune_sheet_board, soodhiqune_sheet_free_count};

/* the set whose calls are made */
static const struct calls *on = &ordinary;
