package jcompat;

import static org.junit.Assert.assertEquals;
import static org.junit.Assert.assertNotNull;
import static org.junit.Assert.assertNull;

import java.util.Arrays;
import java.util.Collections;

import org.junit.Test;

public class JavasTest {
    private static final int PREVIEW = 0xffff << 16;

    private static Javas javas(Integer... versions) {
        return new Javas(Arrays.asList(versions));
    }

    @Test
    public void saysWhichClientsAreLeftBehind() {
        assertEquals(Collections.singletonList("needs Java 17, the old release ran on 11: clients on 11 to 16 get UnsupportedClassVersionError"),
                Javas.needs(javas(50, 55), javas(61, 52)));
        assertEquals(Collections.singletonList("needs Java 5, the old release ran on 1.4: clients on 1.4 get UnsupportedClassVersionError"), Javas.needs(javas(48), javas(49)));
    }

    @Test
    public void anOlderOrTheSameNeedsNothing() {
        assertEquals(Collections.emptyList(), Javas.needs(javas(61), javas(55)));
        assertEquals(Collections.emptyList(), Javas.needs(javas(61 | PREVIEW), javas(61 | PREVIEW)));
    }

    @Test
    public void previewsRunOnOneVersion() {
        assertEquals(1, Javas.needs(javas(61), javas(61 | PREVIEW)).size());
        assertNull(javas(61 | PREVIEW, 55).refused(17));
        assertNotNull(javas(61 | PREVIEW).refused(21));
        assertNotNull(javas(61).refused(11));
        assertNull(javas(61).refused(25));
    }

    @Test
    public void findingsSayMoreThanWhatWasNotCompared() {
        assertEquals(1, Status.greater(71, 1));
        assertEquals(73, Status.greater(73, 71));
        assertEquals(71, Status.greater(71, 72));
        assertEquals(72, Status.greater(0, 72));
        assertEquals(70, Status.greater(1, 70));
        assertEquals(70, Status.greater(70, 0));
    }
}
