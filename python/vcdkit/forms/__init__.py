"""Forms of answers: texts, JSON, SAIF, JUnit, pictures and pages."""
