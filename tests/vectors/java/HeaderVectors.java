import java.time.Instant;
import java.util.Date;
import java.util.HexFormat;
import org.bouncycastle.asn1.ASN1GeneralizedTime;
import org.bouncycastle.asn1.ASN1ObjectIdentifier;
import org.bouncycastle.asn1.DERNull;
import org.bouncycastle.asn1.DERUTF8String;
import org.bouncycastle.asn1.cmp.InfoTypeAndValue;
import org.bouncycastle.asn1.cmp.PKIFreeText;
import org.bouncycastle.asn1.cmp.PKIHeader;
import org.bouncycastle.asn1.cmp.PKIHeaderBuilder;
import org.bouncycastle.asn1.x500.X500NameBuilder;
import org.bouncycastle.asn1.x500.style.BCStyle;
import org.bouncycastle.asn1.x509.AlgorithmIdentifier;
import org.bouncycastle.asn1.x509.GeneralName;

/** Prints headers of CMP messages that Bouncy Castle writes: with every field, and with the fewest. */
public final class HeaderVectors {
    public static void main(String[] words) throws Exception {
        System.out.println("# Bouncy Castle " + PKIHeader.class.getPackage().getImplementationVersion());
        GeneralName device = new GeneralName(new X500NameBuilder().addRDN(BCStyle.CN, "device-1").build());
        GeneralName authority = new GeneralName(new X500NameBuilder().addRDN(BCStyle.CN, "Fleet CA").build());
        show("fewest", new PKIHeaderBuilder(2, device, authority).build());
        PKIHeaderBuilder all = new PKIHeaderBuilder(3, device, authority);
        all.setMessageTime(new ASN1GeneralizedTime(Date.from(Instant.ofEpochSecond(1_700_000_000L))));
        all.setProtectionAlg(new AlgorithmIdentifier(new ASN1ObjectIdentifier("1.2.840.113549.1.9.16.3.17")));
        all.setSenderKID(run(1, 8));
        all.setRecipKID(run(2, 8));
        all.setTransactionID(run(3, 16));
        all.setSenderNonce(run(4, 16));
        all.setRecipNonce(run(5, 16));
        all.setFreeText(new PKIFreeText(new DERUTF8String[] {new DERUTF8String("denied"), new DERUTF8String("G\u00e9r\u00e4t")}));
        all.setGeneralInfo(new InfoTypeAndValue[] {
            new InfoTypeAndValue(new ASN1ObjectIdentifier("1.3.6.1.5.5.7.4.13"), DERNull.INSTANCE),
            new InfoTypeAndValue(new ASN1ObjectIdentifier("1.3.6.1.5.5.7.4.15"))});
        show("every field", all.build());
    }

    private static byte[] run(int first, int count) {
        byte[] octets = new byte[count];
        for (int i = 0; i < count; i++) {
            octets[i] = (byte) (first * 16 + i);
        }
        return octets;
    }

    private static void show(String name, PKIHeader header) throws Exception {
        System.out.println(name + ": " + HexFormat.of().formatHex(header.getEncoded("DER")));
    }
}
