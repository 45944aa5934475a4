/**
 * The settlement engine of an emission allowance registry. {@link registry.Registry} has its calls on texts, and
 * {@link registry.Day} the same as typed rows, with a writer of day texts.
 */
package registry;
