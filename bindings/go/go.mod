module kudebafon.example/agefile

go 1.19
