package java.util;

import zuqelash.Texts;

/** What entries have in common. */
abstract class AnyEntry<K, V> implements Map.Entry<K, V> {
    AnyEntry() {
    }

    public boolean equals(Object other) {
        if (!(other instanceof Map.Entry)) {
            return false;
        }
        Map.Entry<?, ?> entry = (Map.Entry<?, ?>) other;
        return Objects.equals(getKey(), entry.getKey()) && Objects.equals(getValue(), entry.getValue());
    }

    public int hashCode() {
        return Objects.hashCode(getKey()) ^ Objects.hashCode(getValue());
    }

    public String toString() {
        String[] texts = {Objects.toString(getKey()), Objects.toString(getValue())};
        return Texts.joined("", texts, texts.length, "=", "", "");
    }
}
