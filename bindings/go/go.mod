module cogtzil.example/hidlog

go 1.19
