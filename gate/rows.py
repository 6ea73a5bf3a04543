"""All cases."""

import rows_callers
import rows_ends
import rows_fit
import rows_freed
import rows_grow
import rows_holders
import rows_links
import rows_memory
import rows_one
import rows_options
import rows_pairs
import rows_places
import rows_questions
import rows_refused
import rows_slack
import rows_stack
import rows_two
import rows_why
import rows_words


def all_cases():
    """The cases of each file of rows."""
    tables = (rows_one, rows_two, rows_freed, rows_links, rows_slack, rows_stack, rows_memory, rows_ends, rows_options,
              rows_fit, rows_refused, rows_pairs, rows_why, rows_words, rows_places, rows_callers, rows_holders,
              rows_questions, rows_grow)
    return [case for table in tables for case in table.cases()]
