select key, value from Stock where field = 'note';
