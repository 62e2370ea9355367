"""The lab: commands for students and teachers over the programs `y86`, `y86-stages` and `y86-tell`."""
