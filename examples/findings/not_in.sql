SELECT * FROM staff WHERE id NOT IN (SELECT boss FROM staff);
