/* The header's functions under other names, so that plain.c and the proved archive can be linked into one program: put before the header
 * (-include bench/plain.h) it turns every winch_ function of a file into its plain_ twin. */
#ifndef WINCH_PLAIN_H
#define WINCH_PLAIN_H

#define winch_open plain_open
#define winch_start_new plain_start_new
#define winch_start_get plain_start_get
#define winch_start_set plain_start_set
#define winch_start_page plain_start_page
#define winch_step plain_step
#define winch_release plain_release
#define winch_look_version plain_look_version
#define winch_look_cell plain_look_cell
#define winch_look_log plain_look_log
#define winch_look_entry plain_look_entry
#define winch_look_task plain_look_task
#define winch_report plain_report
#define winch_check plain_check

/* a test may leave out what it can ask of the proved archive alone */
#define WINCH_IS_PLAIN 1

#endif
