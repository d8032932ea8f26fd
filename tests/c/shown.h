/* The words of the shown library PUMP (RULES, "Shown example"). */
#ifndef SHOWN_H
#define SHOWN_H

#define HEADER 03100503130004003147
#define YANKS 031011613535353000000
#define PUMP 020251520000000000000
#define ONE 017160500000000000000

#define SHOWN                                                                                                             \
    {HEADER, 02000002, PUMP, ONE, YANKS, PUMP,                                                                            \
     060000001000001200001, 047040503135520251520,                                                                        \
     01000002200001, 040000002000000000000, 055015434000000000000, 060000001000001200002,                                 \
     055015436000000000000, 060000001000003200001, 055025435000000000000}

#endif
