/* What the benchmark times, a file each. */
#pragma once

void reed_solomon_jobs(void);
void frame_jobs(void);
void message_jobs(void);
void back_jobs(void);
void record_jobs(void);
void replacement_jobs(void);
