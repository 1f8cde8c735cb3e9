/**
 * Tests that run the service of a plan with JUnit 5: {@link sizing.junit5.SizingPlan} for a class of tests, and
 * {@link sizing.junit5.SizingAssertions} for single assertions.
 */
package sizing.junit5;
