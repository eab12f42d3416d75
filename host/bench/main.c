/* Times the stages of the chain, whole frames both ways, frames in a record and late replacements, beside the libraries
   that a user would pick instead, and prints a row for each. What every timed call gave is compared, with a plain slow
   computation (plain.h) or with what was sent. `bench check` compares and times nothing: one round each, and no row. */
#include "jobs.h"
#include "measure.h"
#include <string.h>

int main(int count, char **words) {
    if (count > 1 && strcmp(words[1], "check") == 0)
        compare_alone();
    reed_solomon_jobs();
    frame_jobs();
    message_jobs();
    back_jobs();
    record_jobs();
    replacement_jobs();
    return 0;
}
