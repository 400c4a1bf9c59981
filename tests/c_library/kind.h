/* With WIDE the tests of a slave port are of a wide one. To be included after ptpx.h. */
#ifndef KIND_H
#define KIND_H

#ifdef WIDE
#define ptpx_slave ptpx_wide_slave
#define ptpx_slave_memory ptpx_wide_slave_memory
#define ptpx_slave_init ptpx_wide_slave_init
#define ptpx_slave_restart ptpx_wide_slave_restart
#define ptpx_slave_set_master ptpx_wide_slave_set_master
#define ptpx_slave_tick ptpx_wide_slave_tick
#define ptpx_slave_next_request ptpx_wide_slave_next_request
#define ptpx_slave_request_left ptpx_wide_slave_request_left
#define ptpx_slave_sync ptpx_wide_slave_sync
#define ptpx_slave_general ptpx_wide_slave_general
#define ptpx_slave_last ptpx_wide_slave_last
#define KIND "wide slave"
#define HOLDS 256
#define STACK_OF_INIT 204800
#else
#define KIND "slave"
#define HOLDS 16
#define STACK_OF_INIT 12288
#endif

#endif
