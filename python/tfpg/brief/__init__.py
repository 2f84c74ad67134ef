"""What a crew reads of a report on a terminal. It says what the report says, and judges nothing."""
