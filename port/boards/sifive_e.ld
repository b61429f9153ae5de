MEMORY { ram : ORIGIN = 0x80000000, LENGTH = 4K
         flash : ORIGIN = 0x20400000, LENGTH = 1M }
REGION_ALIAS("code", flash)
INCLUDE monitor.ld
