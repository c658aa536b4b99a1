/* What the header says, against the real library. The last line is `N passed, M failed`, and the exit status is 0 only if nothing failed. */
#include "cases.h"

#include <stdio.h>

int main(void)
{
    setvbuf(stdout, NULL, _IOLBF, BUFSIZ); /* so that the last line stands before a case that ends the program */
    null_cases();
    refused_cases();
    claim_cases();
    reason_cases();
    place_cases();
    interval_cases();
    question_cases();
    why_cases();
    total_cases();
    date_cases();
    return all_passed() ? 0 : 1;
}
