"""The cases of the suite, a module for each subject: its title is `SUBJECT`, its cases are `CASES`."""
