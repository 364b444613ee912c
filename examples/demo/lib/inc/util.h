void greet();
