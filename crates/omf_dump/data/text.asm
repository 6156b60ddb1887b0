; text
