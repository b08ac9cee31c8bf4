SELECT name FROM staff WHERE salary > 50000;
