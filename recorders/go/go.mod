module kangaroo/recorder

go 1.19
