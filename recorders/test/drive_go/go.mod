module kangaroo/drive

go 1.19

require kangaroo/recorder v0.0.0

replace kangaroo/recorder => ../../go
