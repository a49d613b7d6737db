/* The proved library as one of the sides. Built with NO_LIBRARY, there is none, and the plain sides are measured alone. */
#include "plain.h"

#ifdef NO_LIBRARY
const struct side *const library = NULL;
#else
#include "asternhaken.h"

static const struct side table = {
    "library", ASTERNHAKEN_STATE_LENGTH, asternhaken_setup, asternhaken_nch, asternhaken_facch, asternhaken_pch, asternhaken_joined, asternhaken_reselected,
    asternhaken_handed_over, asternhaken_reconfigured, asternhaken_left_idle, asternhaken_bit_22, asternhaken_tick, asternhaken_read, asternhaken_nch_read, asternhaken_facch_read,
    asternhaken_nch_write, asternhaken_facch_write, ASTERNHAKEN_UPLINK_LENGTH, asternhaken_uplink_setup,
    { asternhaken_uplink_free, asternhaken_uplink_busy, asternhaken_uplink_request, asternhaken_uplink_tick },
    ASTERNHAKEN_YARD_LENGTH, asternhaken_yard_setup, asternhaken_yard_nch, asternhaken_yard_reselected, asternhaken_yard_tick, asternhaken_yard_count, asternhaken_yard_call_numbers
};
const struct side *const library = &table;
#endif
