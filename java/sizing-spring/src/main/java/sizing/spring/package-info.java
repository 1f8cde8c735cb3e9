/**
 * Executor beans and plans: {@link sizing.spring.SizingBeans} compares the executors of a context with a plan when it starts, and
 * records them.
 */
package sizing.spring;
