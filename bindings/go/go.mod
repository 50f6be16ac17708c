module malletochre

go 1.19
