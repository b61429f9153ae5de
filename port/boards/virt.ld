MEMORY { ram : ORIGIN = 0x80000000, LENGTH = 2M }
REGION_ALIAS("code", ram)
INCLUDE monitor.ld
