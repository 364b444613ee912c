#ifndef STATS_SUMMARY_H
#define STATS_SUMMARY_H

namespace stats {

struct Summary {
    int mean;
    int largest;
};

}

#endif
