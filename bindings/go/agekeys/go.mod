module kudebafon.example/agefile/agekeys

go 1.19

require (
	filippo.io/age v1.1.1
	kudebafon.example/agefile v0.0.0
)

replace kudebafon.example/agefile => ../
