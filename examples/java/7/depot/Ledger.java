package depot;

import java.util.ArrayList;
import java.util.Collection;
import java.util.Collections;
import java.util.Comparator;
import java.util.Iterator;
import java.util.LinkedHashMap;
import java.util.List;
import java.util.Map;
import java.util.NoSuchElementException;

/** Generics with bounds and wildcards, inner and anonymous classes, and an iterator of its own. */
public class Ledger<K extends Comparable<? super K>, V> implements Iterable<Ledger.Entry<K, V>> {
    private final Map<K, List<V>> pages = new LinkedHashMap<K, List<V>>();
    private int changes;

    public Ledger<K, V> enter(K key, V value) {
        List<V> page = pages.get(key);
        if (page == null) {
            page = new ArrayList<>();
            pages.put(key, page);
        }
        page.add(value);
        changes++;
        return this;
    }

    public <W extends V> void enterAll(K key, Collection<? extends W> values) {
        for (W value : values) {
            enter(key, value);
        }
    }

    public int count(K key) {
        List<V> page = pages.get(key);
        return page == null ? 0 : page.size();
    }

    /** The keys, those with most values first. */
    public List<K> busiest() {
        List<K> keys = new ArrayList<>(pages.keySet());
        Collections.sort(keys, new Comparator<K>() {
            @Override
            public int compare(K one, K other) {
                int difference = count(other) - count(one);
                return difference != 0 ? difference : one.compareTo(other);
            }
        });
        return keys;
    }

    public void copyTo(Map<? super K, ? super List<V>> target) {
        for (Map.Entry<K, List<V>> page : pages.entrySet()) {
            target.put(page.getKey(), page.getValue());
        }
    }

    public static <T extends Object & Comparable<? super T>> T greatest(Iterable<? extends T> items, T otherwise) {
        T greatest = otherwise;
        for (T item : items) {
            if (greatest == null || item.compareTo(greatest) > 0) {
                greatest = item;
            }
        }
        return greatest;
    }

    @Override
    public Iterator<Entry<K, V>> iterator() {
        return new Entries();
    }

    /** A static nested class with type parameters of its own. */
    public static final class Entry<A, B> {
        final A key;
        final B value;

        Entry(A key, B value) {
            this.key = key;
            this.value = value;
        }

        public <C> Entry<A, C> with(C other) {
            return new Entry<A, C>(key, other);
        }

        @Override
        public String toString() {
            return key + "=" + value;
        }
    }

    /** An inner class that reads and checks fields of the instance around it. */
    private class Entries implements Iterator<Entry<K, V>> {
        private final Iterator<Map.Entry<K, List<V>>> keys = pages.entrySet().iterator();
        private final int expected = changes;
        private K key;
        private Iterator<V> values = Collections.<V>emptyList().iterator();

        @Override
        public boolean hasNext() {
            while (!values.hasNext() && keys.hasNext()) {
                Map.Entry<K, List<V>> page = keys.next();
                key = page.getKey();
                values = page.getValue().iterator();
            }
            return values.hasNext();
        }

        @Override
        public Entry<K, V> next() {
            if (expected != Ledger.this.changes) {
                throw new IllegalStateException("the ledger was changed");
            }
            if (!hasNext()) {
                throw new NoSuchElementException();
            }
            return new Entry<>(key, values.next());
        }

        @Override
        public void remove() {
            throw new UnsupportedOperationException();
        }
    }
}
