/* The door of the proved archive; with -DPLAIN the plain C reader in its place, to try a program without the archive. */
#ifndef SIDE_H
#define SIDE_H
#include "../include/rovinuset.h"
#include "park.h"
#include "reader.h"
#ifdef PLAIN
#define rov_afresh plain_afresh
#define rov_sound plain_sound
#define rov_dots plain_dots
#define rov_run plain_run
#define rov_translate plain_translate
#define rov_park plain_park
#define rov_unpark plain_unpark
#endif
#endif
