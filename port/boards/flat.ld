MEMORY { ram : ORIGIN = 0x08000000, LENGTH = 2M }
REGION_ALIAS("code", ram)
INCLUDE monitor.ld
