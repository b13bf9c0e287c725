/* The program `bench` of document 01 over the plain library. */
#include "record.h"
#include "session.h"

int main(void)
{
    if (make_fresh() != 0)
        return 1;
    run_session(take, 0, report, ANSWER_BYTES);
    return 0;
}
